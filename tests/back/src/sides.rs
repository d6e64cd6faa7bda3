//! One machine on both sides: the archive's buffers, between guard bytes, and
//! the reference's. Every call is made on both, and every byte compared.

use crate::call::Call;
use crate::fields::{byte_name, clear_journal_place, same_but_journal_place};
use crate::guarded::Guarded;
use crate::lending;
use crate::lent::Lent;
use crate::names::{index_byte, journal_byte, paper_byte, ram_byte};
use crate::report::unpacked;
use reference::layout::RECORD_BYTES;
use reference::{decode, Answer, Machine};

/// What a call may write.
#[derive(Clone, Default, PartialEq, Eq)]
pub struct Buffers {
    pub image: Vec<u8>,
    pub ram: Vec<u8>,
    pub paper: Vec<u8>,
    pub journal: Vec<u8>,
    pub index: Vec<u8>,
}

pub struct Sides {
    pub lent: Lent,
    pub theirs: Buffers,
}

/// The answer of both, or in what they differ.
pub type Both = Result<Answer, Vec<String>>;

const MOST_LINES: usize = 12;
const MOST_BUDGET: u64 = 1_000_000;

impl Sides {
    pub fn new(call: Call) -> Sides {
        Sides {
            lent: call.lent(),
            theirs: Buffers {
                image: call.image,
                ram: call.ram,
                paper: call.paper,
                journal: call.journal,
                index: call.index,
            },
        }
    }

    pub fn machine(&self) -> Machine {
        decode(&self.theirs.image)
    }

    pub fn reset(&mut self, parameters: [u64; 3]) -> Both {
        let ours = lending::reset(&mut self.lent, parameters);
        let [time_scale, delay, installed] = parameters;
        let Buffers { image, index, .. } = &mut self.theirs;
        let theirs = reference::diskless::reset(image, index, time_scale, delay, installed);
        self.compared(ours, theirs)
    }

    pub fn run(&mut self, budget: u64, stop: u64) -> Both {
        let ours = lending::run(&mut self.lent, budget, stop);
        let Buffers { image, ram, paper, journal, index } = &mut self.theirs;
        let (execution, bootstrap) = (self.lent.execution.content(), self.lent.bootstrap.content());
        let theirs = reference::diskless::run_with_records(
            image, execution, bootstrap, ram, paper, journal, index, budget, stop,
        );
        self.compared(ours, theirs)
    }

    pub fn take_back(&mut self, steps: u64) -> Both {
        let ours = lending::take_back(&mut self.lent, steps);
        let Buffers { image, ram, paper, journal, index } = &mut self.theirs;
        let theirs = reference::diskless::take_back(image, ram, paper, journal, index, steps);
        self.compared(ours, theirs)
    }

    /// What a machine that never goes back begins from: no journal, no index.
    pub fn beginning(&self) -> Buffers {
        let Buffers { image, ram, paper, .. } = &self.theirs;
        let (mut image, ram, paper) = (image.clone(), ram.clone(), paper.clone());
        clear_journal_place(&mut image);
        Buffers { image, ram, paper, ..Buffers::default() }
    }

    /// Whether all but journal and index is what so many steps from there leave.
    pub fn is_behind(&self, beginning: &Buffers, steps: u64) -> bool {
        let Buffers { mut image, mut ram, mut paper, .. } = beginning.clone();
        let (execution, bootstrap) = (self.lent.execution.content(), self.lent.bootstrap.content());
        let mut left = steps;
        while left > 0 {
            let budget = left.min(MOST_BUDGET);
            let (image, ram, paper) = (&mut image, &mut ram, &mut paper);
            let answer = reference::diskless::run(
                image,
                execution,
                bootstrap,
                ram,
                paper,
                &mut [],
                budget,
                0,
            );
            if u64::from(answer.steps) != budget {
                return false;
            }
            left -= budget;
        }
        same_but_journal_place(&image, &self.theirs.image)
            && ram == self.theirs.ram
            && paper == self.theirs.paper
    }

    pub fn compared(&self, ours: u64, theirs: Answer) -> Both {
        let mut lines = Vec::new();
        if ours != theirs.packed() {
            lines.push(format!("archive:   {}", unpacked(ours)));
            lines.push(format!("reference: {}", unpacked(theirs.packed())));
        }
        lines.extend(self.lent.wrong());
        let Sides { lent, theirs: Buffers { image, ram, paper, journal, index } } = self;
        let paper_name = |place| paper_byte(place, paper.len());
        different("image", &lent.image, image, &byte_name, &mut lines);
        different("RAM", &lent.ram, ram, &ram_byte, &mut lines);
        different("paper", &lent.paper, paper, &paper_name, &mut lines);
        different("journal", &lent.journal, journal, &journal_byte, &mut lines);
        different("index", &lent.index, index, &index_byte, &mut lines);
        if lines.is_empty() {
            Ok(theirs)
        } else {
            Err(lines)
        }
    }

    /// Writes a record into both journals.
    pub fn set_record(&mut self, slot: usize, record: &[u8]) {
        self.lent.journal.content_mut()[RECORD_BYTES * slot..][..RECORD_BYTES]
            .copy_from_slice(record);
        self.theirs.journal[RECORD_BYTES * slot..][..RECORD_BYTES].copy_from_slice(record);
    }

    /// Writes all but the journals.
    pub fn restore(&mut self, left: &Buffers) {
        let Sides { lent, theirs } = self;
        for (ours, theirs, left) in [
            (&mut lent.image, &mut theirs.image, &left.image),
            (&mut lent.ram, &mut theirs.ram, &left.ram),
            (&mut lent.paper, &mut theirs.paper, &left.paper),
            (&mut lent.index, &mut theirs.index, &left.index),
        ] {
            ours.content_mut().copy_from_slice(left);
            theirs.copy_from_slice(left);
        }
    }
}

/// Names the first few of the bytes that differ.
fn different(
    what: &str,
    ours: &Guarded,
    theirs: &[u8],
    name: &dyn Fn(usize) -> String,
    lines: &mut Vec<String>,
) {
    if ours.content() == theirs {
        return;
    }
    let pairs = || ours.content().iter().zip(theirs).enumerate();
    for (place, (our, their)) in pairs().filter(|(_, (our, their))| our != their).take(MOST_LINES) {
        lines.push(format!("{}: archive {our:#04x}, reference {their:#04x}", name(place)));
    }
    let count = pairs().filter(|(_, (our, their))| our != their).count();
    lines.push(format!("{what}: {count} bytes differ"));
}
