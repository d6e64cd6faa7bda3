//! A machine with its lent buffers, set up for a few steps.
#![allow(dead_code)]

pub mod asm;
pub mod dice;
pub mod disks;
pub mod states;

use reference::{
    decode, encode, keeps_rules, reset, Answer, Machine, Memory, NoRecord, Status, IMAGE_BYTES,
};

pub const RAM: u32 = 0x2000_0000;
pub const BUS: u32 = 0x1000_0000;
pub const BOOT: u32 = 0x1FC0_0000;

pub const KERNEL: u32 = 0x1000_0000;
pub const USER: u32 = 0x0000_0002;
pub const VM: u32 = 0x0100_0000;

pub const VALID: u32 = 0x200;
pub const DIRTY: u32 = 0x400;
pub const GLOBAL: u32 = 0x100;

pub const TIMER: u32 = 0x20;
pub const DELAY: u32 = 3;

/// Offset of a printer's device register in the device area.
pub const fn printer(number: u32) -> u32 {
    0x50 + 3 * 0x80 + number * 0x10
}

#[derive(Clone)]
pub struct Bench {
    pub machine: Machine,
    pub execution: Vec<u8>,
    pub bootstrap: Vec<u8>,
    pub ram: Vec<u8>,
    pub paper: Vec<u8>,
    pub journal: Vec<u8>,
    pub index: Vec<u8>,
    pub disks: [Vec<u8>; 8],
}

/// Everything lent, as the host would compare it.
impl PartialEq for Bench {
    fn eq(&self, other: &Bench) -> bool {
        self.image() == other.image()
            && self.execution == other.execution
            && self.bootstrap == other.bootstrap
            && self.ram == other.ram
            && self.paper == other.paper
            && self.journal == other.journal
            && self.index == other.index
            && self.disks == other.disks
    }
}

/// The state alone; the buffers would bury it.
impl std::fmt::Debug for Bench {
    fn fmt(&self, to: &mut std::fmt::Formatter) -> std::fmt::Result {
        self.machine.fmt(to)
    }
}

/// An image as reset leaves it: scale 1, delay 3, printers 0 and 2.
pub fn reset_image() -> Vec<u8> {
    let mut image = vec![0xEE; IMAGE_BYTES];
    assert_eq!(reset(&mut image, &mut [7; 16], 1, DELAY.into(), 5, 0, [0; 8]).packed(), 0);
    image
}

pub fn put_words(bytes: &mut [u8], at: usize, words: &[u32]) {
    for (number, word) in words.iter().enumerate() {
        let place = at + number * 4;
        bytes[place..place + 4].copy_from_slice(&word.to_le_bytes());
    }
}

/// The disks' buffers, as a call is lent them.
pub fn lend(disks: &mut [Vec<u8>; 8]) -> [&mut [u8]; 8] {
    disks.each_mut().map(|disk| &mut disk[..])
}

impl Bench {
    /// Kernel mode, vectors in the execution ROM, PC at RAM's start, and
    /// register 8 the base of the device area, 9 that of RAM.
    pub fn new() -> Bench {
        let mut machine = decode(&reset_image());
        machine.status = Status(KERNEL);
        machine.pc = RAM;
        machine.next_pc = RAM + 4;
        machine.registers[8] = BUS;
        machine.registers[9] = RAM;
        Bench {
            machine,
            execution: vec![0; 0x200],
            bootstrap: vec![0; 0x200],
            ram: vec![0; 0x2000],
            paper: vec![0; 32],
            journal: vec![0; 4 * 512],
            index: vec![0; 2 * 16],
            disks: Default::default(),
        }
    }

    pub fn with(words: &[u32]) -> Bench {
        let mut bench = Bench::new();
        put_words(&mut bench.ram, 0, words);
        bench
    }

    pub fn status(mut self, bits: u32) -> Bench {
        self.machine.status = Status(bits);
        self
    }

    pub fn register(mut self, number: usize, value: u32) -> Bench {
        self.machine.registers[number] = value;
        self
    }

    pub fn pc(mut self, pc: u32) -> Bench {
        self.machine.pc = pc;
        self.machine.next_pc = pc.wrapping_add(4);
        self
    }

    pub fn entry(mut self, number: usize, high: u32, low: u32) -> Bench {
        self.machine.tlb[number].high = high;
        self.machine.tlb[number].low = low;
        self
    }

    pub fn image(&self) -> Vec<u8> {
        let mut image = vec![0; IMAGE_BYTES];
        encode(&self.machine, &mut image);
        image
    }

    /// Runs and takes the image over, which has to keep the rules.
    pub fn run_with(&mut self, budget: u64, stop: u64) -> Answer {
        let mut image = self.image();
        let answer = reference::run(
            &mut image,
            &self.execution,
            &self.bootstrap,
            &mut self.ram,
            &mut self.paper,
            &mut self.journal,
            lend(&mut self.disks),
            budget,
            stop,
        );
        if answer.number == 0 {
            assert!(keeps_rules(&image, self.ram.len(), self.paper.len(), self.journal.len()));
        }
        self.machine = decode(&image);
        answer
    }

    /// An index for the RAM of now. Frames that it did not have name no step.
    pub fn fit_index(&mut self) {
        self.index.resize(self.ram.len() / 4096 * 16, 0);
    }

    /// The same with records.
    pub fn run_records(&mut self, budget: u64, stop: u64) -> Answer {
        self.fit_index();
        let mut image = self.image();
        let answer = reference::run_with_records(
            &mut image,
            &self.execution,
            &self.bootstrap,
            &mut self.ram,
            &mut self.paper,
            &mut self.journal,
            &mut self.index,
            lend(&mut self.disks),
            budget,
            stop,
        );
        assert!(
            answer.number != 0
                || keeps_rules(&image, self.ram.len(), self.paper.len(), self.journal.len())
        );
        self.machine = decode(&image);
        answer
    }

    /// One step by its definition, in or out of a run, and without the journal.
    /// Tells whether it entered an exception.
    pub fn step(&mut self) -> bool {
        // What follows from the image, and is not part of it, is worked out anew.
        self.machine = decode(&self.image());
        let mut memory = Memory {
            execution_rom: &self.execution,
            bootstrap_rom: &self.bootstrap,
            ram: &mut self.ram,
            paper: &mut self.paper,
            disks: lend(&mut self.disks),
        };
        reference::step(&mut self.machine, &mut memory, &mut NoRecord)
    }

    /// Takes back from the records; a refusal has to leave everything.
    pub fn take_back(&mut self, steps: u64) -> Answer {
        self.fit_index();
        let mut after = self.clone();
        let mut image = self.image();
        let answer = reference::take_back(
            &mut image,
            &mut after.ram,
            &mut after.paper,
            &after.journal,
            &mut after.index,
            lend(&mut after.disks),
            steps,
        );
        after.machine = decode(&image);
        if answer.number != 0 {
            assert_eq!(answer, Answer::refused(answer.number));
            assert_eq!(after, *self);
        } else {
            assert_eq!((answer.reason, u64::from(answer.steps)), (0, steps));
            assert!(keeps_rules(&image, after.ram.len(), after.paper.len(), after.journal.len()));
            assert_eq!(after.machine.on_hand, self.machine.on_hand - answer.steps);
        }
        *self = after;
        answer
    }

    pub fn slots(&self) -> u32 {
        (self.journal.len() / 512) as u32
    }

    /// The record of the newest step but `age`.
    pub fn record(&mut self, age: u32) -> &mut [u8] {
        let slots = self.slots();
        let slot = (self.machine.next_slot + slots - 1 - age) % slots;
        &mut self.journal[slot as usize * 512..][..512]
    }

    /// Runs so many steps, all without an exception.
    pub fn run(mut self, steps: u64) -> Bench {
        let answer = self.run_with(steps, 1);
        assert_eq!((answer.number, answer.reason, u64::from(answer.steps)), (0, 1, steps));
        self
    }

    /// Runs to an exception, which has to come in this very step.
    pub fn trap(mut self, steps: u64) -> Bench {
        let answer = self.run_with(steps, 1);
        assert_eq!((answer.number, answer.reason, u64::from(answer.steps)), (0, 2, steps));
        self
    }

    pub fn reg(&self, number: usize) -> u32 {
        self.machine.registers[number]
    }

    pub fn code(&self) -> u32 {
        self.machine.cause >> 2 & 31
    }

    pub fn ce(&self) -> u32 {
        self.machine.cause >> 28 & 3
    }

    pub fn ram_word(&self, place: usize) -> u32 {
        u32::from_le_bytes(self.ram[place..place + 4].try_into().unwrap())
    }
}
