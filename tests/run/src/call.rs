//! One call of run: what is lent, and what the reference makes of it.

use crate::guarded::Guarded;
use crate::lent::Lent;
use reference::layout::RECORD_BYTES;
use reference::Memory;

#[derive(Clone)]
pub struct Call {
    pub image: Vec<u8>,
    pub execution: Vec<u8>,
    pub bootstrap: Vec<u8>,
    pub ram: Vec<u8>,
    pub paper: Vec<u8>,
    pub journal: Vec<u8>,
    pub index: Vec<u8>,
    pub budget: u64,
    pub stop: u64,
}

/// The packed answer, and every byte that a run may write.
#[derive(PartialEq, Eq)]
pub struct Outcome {
    pub answer: u64,
    pub image: Vec<u8>,
    pub ram: Vec<u8>,
    pub paper: Vec<u8>,
    pub journal: Vec<u8>,
    pub index: Vec<u8>,
}

impl Outcome {
    pub fn number(&self) -> u64 {
        self.answer & 0xFF
    }

    pub fn reason(&self) -> u64 {
        self.answer >> 8 & 0xFF
    }

    pub fn steps(&self) -> u64 {
        self.answer >> 32
    }
}

impl Call {
    pub fn slots(&self) -> usize {
        self.journal.len() / RECORD_BYTES
    }

    /// To be lent to the archive, again and again.
    pub fn lent(&self) -> Lent {
        Lent {
            image: Guarded::new(&self.image),
            execution: Guarded::new(&self.execution),
            bootstrap: Guarded::new(&self.bootstrap),
            ram: Guarded::new(&self.ram),
            paper: Guarded::new(&self.paper),
            journal: Guarded::new(&self.journal),
            index: Guarded::new(&self.index),
        }
    }

    /// For the reference's steps: the ROMs as they are, RAM and paper as copies.
    pub fn memory<'a>(&'a self, ram: &'a mut [u8], paper: &'a mut [u8]) -> Memory<'a> {
        Memory {
            execution_rom: &self.execution,
            bootstrap_rom: &self.bootstrap,
            ram,
            paper,
            disks: reference::no_disks(),
        }
    }

    /// What the reference answers and leaves, with this budget.
    pub fn by_reference(&self, budget: u64) -> Outcome {
        let mut outcome = Outcome {
            answer: 0,
            image: self.image.clone(),
            ram: self.ram.clone(),
            paper: self.paper.clone(),
            journal: self.journal.clone(),
            index: self.index.clone(),
        };
        let answer = reference::diskless::run_with_records(
            &mut outcome.image,
            &self.execution,
            &self.bootstrap,
            &mut outcome.ram,
            &mut outcome.paper,
            &mut outcome.journal,
            &mut outcome.index,
            budget,
            self.stop,
        );
        outcome.answer = answer.packed();
        outcome
    }

    /// The same buffers after so many steps of the reference.
    pub fn after(&self, steps: u64) -> Call {
        let mut later = self.clone();
        later.stop = 0;
        let outcome = later.by_reference(steps);
        later.image = outcome.image;
        later.ram = outcome.ram;
        later.paper = outcome.paper;
        later.journal = outcome.journal;
        later.index = outcome.index;
        later.stop = self.stop;
        later
    }
}
