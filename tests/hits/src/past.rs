//! The reference beside the stub: step by step, with all that each step overwrote;
//! and the bytes that its run and its take-back leave after as many steps at once.

use crate::stub::Station;
use reference::diskless::{run, run_with_records, take_back};
use reference::layout::RECORD_BYTES;
use reference::{decode, encode, step, step_meets_two, Machine, Memory, Recorder};
use std::collections::VecDeque;

/// What a step found, so that it can be undone without its record.
pub struct Moment {
    pub machine: Machine,
    /// The place in RAM of the word that it stored to, and the word before.
    pub store: Option<(u32, u32)>,
    paper: Vec<(usize, u8)>,
    pub entered: bool,
}

#[derive(Default)]
struct Told {
    store: Option<(u32, u32)>,
    paper: Vec<(usize, u8)>,
}

impl Recorder for Told {
    fn ram_word(&mut self, place: usize, old: u32) {
        self.store = Some((place as u32, old));
    }

    fn paper_byte(&mut self, _printer: usize, place: usize, old: u8) {
        self.paper.push((place, old));
    }
}

/// PCs, and places in RAM that are stored to: each once, in the order in which they
/// are met.
#[derive(Default)]
pub struct Coming {
    pub pcs: Vec<u32>,
    pub places: Vec<u32>,
}

impl Coming {
    fn add(&mut self, pc: u32, place: Option<u32>) {
        if !self.pcs.contains(&pc) {
            self.pcs.push(pc);
        }
        if let Some(place) = place.filter(|place| !self.places.contains(place)) {
            self.places.push(place);
        }
    }
}

pub struct Past {
    pub slots: usize,
    pub machine: Machine,
    ram: Vec<u8>,
    paper: Vec<u8>,
    /// The steps on hand; while one is being looked at, one more.
    pub moments: VecDeque<Moment>,
    /// Since the station was made.
    pub steps: u64,
    /// By run and take-back.
    pub due: Station,
}

impl Past {
    /// With no step on hand.
    pub fn new(due: Station) -> Past {
        let machine = decode(&due.image);
        assert_eq!(machine.on_hand, 0);
        Past {
            slots: due.journal.len() / RECORD_BYTES,
            machine,
            ram: due.ram.clone(),
            paper: due.paper.clone(),
            moments: VecDeque::new(),
            steps: 0,
            due,
        }
    }

    fn memory(&mut self) -> (&mut Machine, Memory<'_>) {
        let memory = Memory {
            execution_rom: &self.due.execution,
            bootstrap_rom: &self.due.bootstrap,
            ram: &mut self.ram,
            paper: &mut self.paper,
            disks: reference::no_disks(),
        };
        (&mut self.machine, memory)
    }

    pub fn meets_two(&mut self) -> bool {
        let (machine, memory) = self.memory();
        step_meets_two(machine, &memory)
    }

    pub fn word(&self, place: u32) -> u32 {
        let bytes = &self.ram[place as usize..][..4];
        u32::from_le_bytes(bytes.try_into().expect("four bytes"))
    }

    /// One step, which is kept even if the journal has no room for it: `forget`
    /// drops the oldest then.
    pub fn step(&mut self) {
        let before = self.machine.clone();
        let mut told = Told::default();
        let (machine, mut memory) = self.memory();
        let entered = step(machine, &mut memory, &mut told);
        let Told { store, paper } = told;
        self.moments.push_back(Moment { machine: before, store, paper, entered });
    }

    /// As many steps as are not on hand behind `steps` of them, at once: for a run
    /// with no points. How many it took; none where two entries match on the way.
    pub fn skip(&mut self, steps: u64) -> u64 {
        let most = steps.saturating_sub(self.slots as u64);
        let (mut image, mut journal) = (self.due.image.clone(), Vec::new());
        let mut machine = decode(&image);
        (machine.on_hand, machine.next_slot) = (0, 0);
        encode(&machine, &mut image);
        let (mut ram, mut paper) = (self.ram.clone(), self.paper.clone());
        let (execution, bootstrap) = (&self.due.execution, &self.due.bootstrap);
        let budget = most.min(1_000_000);
        let answer =
            run(&mut image, execution, bootstrap, &mut ram, &mut paper, &mut journal, budget, 0);
        if answer.number != 0 || u64::from(answer.steps) < most || most == 0 {
            return 0;
        }
        self.machine = decode(&image);
        (self.ram, self.paper) = (ram, paper);
        self.moments.clear();
        most
    }

    pub fn forget(&mut self) {
        while self.moments.len() > self.slots {
            self.moments.pop_front();
        }
    }

    /// The newest step is taken back.
    pub fn undo(&mut self) {
        let moment = self.moments.pop_back().expect("a step on hand");
        self.machine = moment.machine;
        if let Some((place, old)) = moment.store {
            self.ram[place as usize..][..4].copy_from_slice(&old.to_le_bytes());
        }
        for (place, old) in moment.paper.into_iter().rev() {
            self.paper[place] = old;
        }
    }

    /// The word that the newest step stored to: its place, before and after.
    pub fn newest_store(&self) -> Option<(u32, u32, u32)> {
        let (place, old) = self.moments.back()?.store?;
        Some((place, old, self.word(place)))
    }

    /// As many steps by the reference's own run.
    pub fn run_due(&mut self, steps: u64) {
        let due = &mut self.due;
        let mut left = steps;
        while left > 0 {
            let budget = left.min(1_000_000);
            let answer = run_with_records(
                &mut due.image,
                &due.execution,
                &due.bootstrap,
                &mut due.ram,
                &mut due.paper,
                &mut due.journal,
                &mut due.index,
                budget,
                0,
            );
            assert_eq!((answer.number, u64::from(answer.steps)), (0, budget), "the test's own run");
            left -= budget;
        }
        self.steps += steps;
        self.check();
    }

    /// As many steps by the reference's own take-back.
    pub fn take_back_due(&mut self, steps: u64) {
        let due = &mut self.due;
        let answer = take_back(
            &mut due.image,
            &mut due.ram,
            &mut due.paper,
            &due.journal,
            &mut due.index,
            steps,
        );
        assert_eq!(answer.number, 0, "the test's own take-back");
        self.steps -= steps;
        self.check();
    }

    /// Both ways of the reference lead to one state.
    fn check(&mut self) {
        let now = decode(&self.due.image);
        self.machine.on_hand = now.on_hand;
        self.machine.next_slot = now.next_slot;
        assert!(self.machine == now, "the reference's machine");
        assert!(self.ram == self.due.ram, "the reference's RAM");
        assert!(self.paper == self.due.paper, "the reference's paper");
        assert_eq!(self.moments.len(), now.on_hand as usize, "the reference's steps on hand");
    }

    /// What the next steps meet, the nearest first.
    pub fn ahead(&self, steps: u64) -> Coming {
        let mut machine = self.machine.clone();
        let (mut ram, mut paper) = (self.ram.clone(), self.paper.clone());
        let mut memory = Memory {
            execution_rom: &self.due.execution,
            bootstrap_rom: &self.due.bootstrap,
            ram: &mut ram,
            paper: &mut paper,
            disks: reference::no_disks(),
        };
        let mut coming = Coming::default();
        for _ in 0..steps {
            let mut told = Told::default();
            step(&mut machine, &mut memory, &mut told);
            coming.add(machine.pc, told.store.map(|(place, _)| place));
        }
        coming
    }

    /// What the steps on hand met, the nearest first.
    pub fn behind(&self, steps: u64) -> Coming {
        let mut coming = Coming::default();
        for moment in self.moments.iter().rev().take(steps as usize) {
            coming.add(moment.machine.pc, moment.store.map(|(place, _)| place));
        }
        coming
    }

    pub fn on_hand(&self) -> usize {
        self.moments.len()
    }

    /// The place in RAM that an address leads to as the machine stands now, where
    /// the documents leave no doubt: untranslated, or by exactly one entry that is
    /// valid.
    pub fn place_of(&self, address: u32) -> Option<u32> {
        let translated = self.machine.status.0 & 1 << 24 != 0;
        let physical = if translated && address >= 0x2000_0000 {
            let mut rows = self.machine.tlb.iter().filter(|row| {
                let same_space = (row.high ^ self.machine.entry_hi) & 0xFC0 == 0;
                (row.high ^ address) >> 12 == 0 && (same_space || row.low & 1 << 8 != 0)
            });
            let row = rows.next()?;
            if rows.next().is_some() || row.low & 1 << 9 == 0 {
                return None;
            }
            row.low & !0xFFF | address & 0xFFF
        } else {
            address
        };
        let place = physical.wrapping_sub(0x2000_0000);
        ((place as usize) < self.ram.len()).then_some(place)
    }
}
