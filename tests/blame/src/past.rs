//! Every state that the reference had since the reset, kept whole, and what
//! follows from them. No record is read.

use reference::{encode, step, step_meets_two, Machine, Memory, Recorder, IMAGE_BYTES};
use std::rc::Rc;

pub const FRAME: usize = 4_096;
pub const RAM_BASE: u32 = 0x2000_0000;

/// The machine between two steps, with RAM by frames.
#[derive(Clone)]
pub struct State {
    pub machine: Machine,
    pub frames: Vec<Rc<Vec<u8>>>,
    pub paper: Rc<Vec<u8>>,
    /// What the step that led here wrote to, whatever it wrote.
    pub stored: Option<u32>,
    /// Whether the step that led here entered an exception.
    pub entered: bool,
}

impl State {
    pub fn word(&self, place: u32) -> u32 {
        let (frame, inside) = (place as usize / FRAME, place as usize % FRAME);
        u32::from_le_bytes(self.frames[frame][inside..][..4].try_into().expect("four bytes"))
    }
}

/// A step that changed a word: `ago` is 1 for the newest.
#[derive(Clone, Copy, PartialEq, Eq, Debug)]
pub struct Change {
    pub ago: u64,
    pub clock: u64,
    pub pc: u32,
    pub instruction: u32,
    pub old: u32,
    pub new: u32,
}

pub struct Past {
    pub execution: Vec<u8>,
    pub bootstrap: Vec<u8>,
    pub slots: u64,
    ram: Vec<u8>,
    paper: Vec<u8>,
    /// From the reset on, or the last load; the last one is now.
    pub states: Vec<State>,
    pub on_hand: u64,
    pub next_slot: u64,
}

/// Only tells what has to be copied behind a step.
#[derive(Default)]
struct Touched {
    place: Option<u32>,
    paper: bool,
}

impl Recorder for Touched {
    fn ram_word(&mut self, place: usize, _old: u32) {
        self.place = Some(place as u32);
    }

    fn paper_byte(&mut self, _printer: usize, _place: usize, _old: u8) {
        self.paper = true;
    }
}

/// The physical address of a fetch that raises nothing (document 01, Addresses).
fn fetched_from(machine: &Machine) -> u32 {
    let pc = machine.pc;
    if machine.status.0 & 1 << 24 == 0 || pc < RAM_BASE {
        return pc;
    }
    let row = machine.tlb.iter().find(|row| {
        let same_space = (row.high ^ machine.entry_hi) & 0xFC0 == 0;
        (row.high ^ pc) >> 12 == 0 && (same_space || row.low & 1 << 8 != 0)
    });
    row.map_or(pc, |row| row.low & !0xFFF | pc & 0xFFF)
}

impl Past {
    pub fn new(machine: Machine, ram: &[u8], paper: &[u8], roms: [&[u8]; 2], slots: u64) -> Past {
        let mut past = Past {
            execution: roms[0].to_vec(),
            bootstrap: roms[1].to_vec(),
            slots,
            ram: Vec::new(),
            paper: Vec::new(),
            states: Vec::new(),
            on_hand: machine.on_hand.into(),
            next_slot: machine.next_slot.into(),
        };
        past.begin(machine, ram.to_vec(), paper.to_vec());
        past
    }

    fn begin(&mut self, machine: Machine, ram: Vec<u8>, paper: Vec<u8>) {
        let frames = ram.chunks_exact(FRAME).map(|frame| Rc::new(frame.to_vec())).collect();
        let paper_now = Rc::new(paper.clone());
        let state = State { machine, frames, paper: paper_now, stored: None, entered: false };
        self.states = vec![state];
        self.ram = ram;
        self.paper = paper;
    }

    pub fn now(&self) -> &State {
        self.ago(0)
    }

    pub fn ago(&self, steps: u64) -> &State {
        &self.states[self.states.len() - 1 - steps as usize]
    }

    /// Bytes from a file: no step, so that none before it can be taken back.
    pub fn load(&mut self, place: usize, bytes: &[u8], next_slot: u64) {
        let machine = self.now().machine.clone();
        let (mut ram, paper) = (self.ram.clone(), self.paper.clone());
        ram[place..][..bytes.len()].copy_from_slice(bytes);
        self.begin(machine, ram, paper);
        self.on_hand = 0;
        self.next_slot = next_slot;
    }

    fn step(&mut self) {
        let mut touched = Touched::default();
        let mut state = self.now().clone();
        let mut memory = Memory {
            execution_rom: &self.execution,
            bootstrap_rom: &self.bootstrap,
            ram: &mut self.ram,
            paper: &mut self.paper,
            disks: reference::no_disks(),
        };
        assert!(!step_meets_two(&state.machine, &memory), "the programs have no page twice");
        state.entered = step(&mut state.machine, &mut memory, &mut touched);
        state.stored = touched.place;
        if let Some(place) = touched.place {
            let frame = place as usize / FRAME;
            state.frames[frame] = Rc::new(self.ram[frame * FRAME..][..FRAME].to_vec());
        }
        if touched.paper {
            state.paper = Rc::new(self.paper.clone());
        }
        self.states.push(state);
        if self.slots > 0 {
            self.on_hand = self.slots.min(self.on_hand + 1);
            self.next_slot = (self.next_slot + 1) % self.slots;
        }
    }

    /// Gives the steps taken: fewer where it is to stop at an exception.
    pub fn run(&mut self, steps: u64, stop_at_exceptions: bool) -> u64 {
        for taken in 1..=steps {
            self.step();
            if stop_at_exceptions && self.now().entered {
                return taken;
            }
        }
        steps
    }

    /// Until a step that writes to RAM, if one comes within so many.
    pub fn run_to_store(&mut self, most: u64) -> u64 {
        for taken in 1..=most {
            self.step();
            if self.now().stored.is_some() {
                return taken;
            }
        }
        most
    }

    pub fn take_back(&mut self, steps: u64) {
        assert!(steps <= self.on_hand, "the test takes back too much");
        let left = self.states.len() - steps as usize;
        self.states.truncate(left);
        let state = self.now().clone();
        for (bytes, frame) in self.ram.chunks_exact_mut(FRAME).zip(&state.frames) {
            bytes.copy_from_slice(frame);
        }
        self.paper.copy_from_slice(&state.paper);
        if steps > 0 {
            self.on_hand -= steps;
            self.next_slot = (self.next_slot + self.slots - steps) % self.slots;
        }
    }

    /// The image of now, with the journal's two words as they are counted here.
    pub fn image(&self) -> Vec<u8> {
        let mut machine = self.now().machine.clone();
        machine.on_hand = self.on_hand as u32;
        machine.next_slot = self.next_slot as u32;
        let mut image = vec![0; IMAGE_BYTES];
        encode(&machine, &mut image);
        image
    }

    pub fn ram(&self) -> &[u8] {
        &self.ram
    }

    pub fn paper(&self) -> &[u8] {
        &self.paper
    }

    /// The word at a physical address, with RAM and ROM as they were.
    fn word_at(&self, state: &State, address: u32) -> u32 {
        let ram_place = address.wrapping_sub(RAM_BASE);
        if (ram_place as usize) < self.ram.len() {
            return state.word(ram_place);
        }
        let (rom, base) = match address >> 24 {
            0x1F => (&self.bootstrap, 0x1FC0_0000),
            _ => (&self.execution, 0),
        };
        let bytes = rom.get((address - base) as usize..).and_then(|rest| rest.get(..4));
        bytes.map_or(0, |four| u32::from_le_bytes(four.try_into().expect("four bytes")))
    }

    /// What a step that fetched found at its PC.
    pub fn instruction(&self, state: &State) -> u32 {
        self.word_at(state, fetched_from(&state.machine))
    }

    /// What stands there now, by the table as it is now.
    pub fn instruction_now(&self, pc: u32) -> u32 {
        let mut machine = self.now().machine.clone();
        machine.pc = pc;
        self.word_at(self.now(), fetched_from(&machine))
    }

    /// What stands there now, where the fetch found it then.
    pub fn rewritten_now(&self, ago: u64) -> u32 {
        self.word_at(self.now(), fetched_from(&self.ago(ago).machine))
    }

    /// The step so many steps ago, as something that changed the word.
    pub fn change(&self, ago: u64, place: u32) -> Change {
        let (before, after) = (self.ago(ago), self.ago(ago - 1));
        Change {
            ago,
            clock: after.machine.clock,
            pc: before.machine.pc,
            instruction: self.instruction(before),
            old: before.word(place),
            new: after.word(place),
        }
    }

    pub fn changed(&self, ago: u64, place: u32) -> bool {
        self.ago(ago).word(place) != self.ago(ago - 1).word(place)
    }

    pub fn stored(&self, ago: u64, place: u32) -> bool {
        self.ago(ago - 1).stored == Some(place)
    }

    /// The clock of the last step on hand that changed a byte of the frame.
    pub fn frame_changed_at(&self, frame: usize) -> Option<u64> {
        let changed = |&ago: &u64| self.ago(ago).frames[frame] != self.ago(ago - 1).frames[frame];
        let ago = (1..=self.on_hand).find(changed)?;
        Some(self.ago(ago - 1).machine.clock)
    }

    /// Four words for each frame: 1, the clock of that step, 0; or zeros.
    pub fn index(&self) -> Vec<u8> {
        let entry = |frame| match self.frame_changed_at(frame) {
            Some(clock) => [&[0, 0, 0, 1][..], &clock.to_be_bytes(), &[0; 4]].concat(),
            None => vec![0; 16],
        };
        (0..self.ram.len() / FRAME).flat_map(entry).collect()
    }

    pub fn last_change(&self, place: u32) -> Option<Change> {
        let ago = (1..=self.on_hand).find(|&ago| self.changed(ago, place))?;
        Some(self.change(ago, place))
    }
}
