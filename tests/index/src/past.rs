//! What each step altered, found by looking at all of RAM before and behind it,
//! and the answers that follow. Neither records nor the index are looked at.

use crate::entry::{self, FRAME};
use crate::sides::Buffers;
use reference::{decode, step, Memory, NoRecord};

/// A word of RAM that a step altered.
#[derive(Clone, Copy, PartialEq, Eq, Debug)]
pub struct Change {
    pub place: usize,
    pub old: u32,
    pub new: u32,
}

struct Step {
    /// Behind its tick.
    clock: u64,
    change: Option<Change>,
}

/// The steps from the start on, without those that were taken back.
pub struct Past {
    steps: Vec<Step>,
    slots: usize,
    pub on_hand: usize,
    /// As it is now, by these steps.
    pub ram: Vec<u8>,
}

/// Which step on hand it was, 1 being the newest, its clock, and the words.
pub type LastWrite = (usize, u64, Change);

fn word(ram: &[u8], place: usize) -> u32 {
    u32::from_le_bytes(ram[place..place + 4].try_into().expect("four bytes"))
}

/// A step alters one word at most.
fn change(before: &[u8], after: &[u8]) -> Option<Change> {
    if before == after {
        return None;
    }
    let differ = |start: &usize| before[*start..][..FRAME] != after[*start..][..FRAME];
    let frames = (0..before.len()).step_by(FRAME).filter(differ);
    let places = frames.flat_map(|start| (start..start + FRAME).step_by(4));
    let mut changes = places
        .map(|place| Change { place, old: word(before, place), new: word(after, place) })
        .filter(|change| change.old != change.new);
    let first = changes.next();
    assert_eq!(changes.next(), None, "a second word altered");
    first
}

impl Past {
    pub fn new(slots: usize, ram: &[u8]) -> Past {
        Past { steps: Vec::new(), slots, on_hand: 0, ram: ram.to_vec() }
    }

    /// Takes the steps of a run again, from what it began with.
    pub fn run(&mut self, before: &Buffers, roms: [&[u8]; 2], steps: u32) {
        let mut machine = decode(&before.image);
        let (mut ram, mut paper) = (self.ram.clone(), before.paper.clone());
        for _ in 0..steps {
            let [execution_rom, bootstrap_rom] = roms;
            let mut memory = Memory {
                execution_rom,
                bootstrap_rom,
                ram: &mut ram,
                paper: &mut paper,
                disks: reference::no_disks(),
            };
            step(&mut machine, &mut memory, &mut NoRecord);
            let change = change(&self.ram, &ram);
            self.put(change, |change| change.new);
            self.steps.push(Step { clock: machine.clock, change });
        }
        self.on_hand = self.slots.min(self.on_hand + steps as usize);
    }

    fn put(&mut self, change: Option<Change>, value: fn(Change) -> u32) {
        if let Some(change) = change {
            self.ram[change.place..][..4].copy_from_slice(&value(change).to_le_bytes());
        }
    }

    pub fn take_back(&mut self, steps: usize) {
        for _ in 0..steps {
            let step = self.steps.pop().expect("steps on hand have been run");
            self.put(step.change, |change| change.old);
        }
        self.on_hand -= steps;
    }

    /// The steps on hand, the newest first.
    fn newest(&self) -> impl Iterator<Item = &Step> {
        self.steps.iter().rev().take(self.on_hand)
    }

    /// The index, worked out afresh.
    pub fn index(&self) -> Vec<u8> {
        let mut clocks = vec![None; self.ram.len() / FRAME];
        for step in self.newest() {
            if let Some(change) = step.change {
                let frame = &mut clocks[change.place / FRAME];
                *frame = frame.or(Some(step.clock));
            }
        }
        clocks.into_iter().flat_map(entry::of).collect()
    }

    pub fn last_write(&self, place: usize) -> Option<LastWrite> {
        (1..).zip(self.newest()).find_map(|(number, step)| {
            step.change.filter(|it| it.place == place).map(|it| (number, step.clock, it))
        })
    }

    /// Also by a step that is not on hand any more.
    pub fn altered(&self, place: usize) -> bool {
        self.steps.iter().any(|step| step.change.map_or(false, |it| it.place == place))
    }

    pub fn word(&self, place: usize) -> u32 {
        word(&self.ram, place)
    }
}
