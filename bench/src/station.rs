//! A machine and its buffers.

use reference::Answer;
use std::rc::Rc;

/// The archive's run and the reference's are both of this type.
pub type Run = fn(
    &mut [u8],
    &[u8],
    &[u8],
    &mut [u8],
    &mut [u8],
    &mut [u8],
    &mut [u8],
    budget: u64,
    stop: u64,
) -> Answer;

/// The longest run that one call may be asked for.
pub const MOST_BUDGET: u64 = 1_000_000;

#[derive(Clone)]
pub struct Station {
    pub image: Vec<u8>,
    /// Execution ROM and bootstrap ROM.
    pub roms: Rc<[Vec<u8>; 2]>,
    pub ram: Vec<u8>,
    pub paper: Vec<u8>,
    pub journal: Vec<u8>,
    pub index: Vec<u8>,
}

impl Station {
    fn call(&mut self, run: Run, budget: u64, stop: u64) -> Answer {
        let [execution_rom, bootstrap_rom] = &*self.roms;
        run(
            &mut self.image,
            execution_rom,
            bootstrap_rom,
            &mut self.ram,
            &mut self.paper,
            &mut self.journal,
            &mut self.index,
            budget,
            stop,
        )
    }

    /// To the end of the next step that enters an exception, or of the budget.
    pub fn to_exception(&mut self, run: Run) -> Answer {
        self.call(run, MOST_BUDGET, 1)
    }

    /// So many steps, in as few calls as may be; the last call's answer, with
    /// the steps of all.
    pub fn run(&mut self, run: Run, steps: u64) -> (Answer, u64) {
        let mut done = 0;
        loop {
            let answer = self.call(run, (steps - done).min(MOST_BUDGET), 0);
            done += u64::from(answer.steps);
            if done == steps || u64::from(answer.steps) < MOST_BUDGET {
                return (answer, done);
            }
        }
    }

    /// Copies without new buffers, so that timed runs find the same memory.
    pub fn copy_from(&mut self, other: &Station) {
        self.image.copy_from_slice(&other.image);
        self.ram.copy_from_slice(&other.ram);
        self.paper.copy_from_slice(&other.paper);
        self.journal.copy_from_slice(&other.journal);
        self.index.copy_from_slice(&other.index);
    }

    /// The first part that is not equal, or None.
    pub fn differs_from(&self, other: &Station) -> Option<&'static str> {
        let parts = [
            ("image", &self.image, &other.image),
            ("RAM", &self.ram, &other.ram),
            ("paper", &self.paper, &other.paper),
            ("journal", &self.journal, &other.journal),
            ("index", &self.index, &other.index),
        ];
        parts.iter().find(|(_, ours, theirs)| ours != theirs).map(|(name, _, _)| *name)
    }
}
