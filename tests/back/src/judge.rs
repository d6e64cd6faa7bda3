//! What is wrong with a record: document 01's three tests, written from that
//! paper and docs/RECORD.md. The reference has to agree with it.

use crate::record::*;
use reference::Machine;

/// What a record is judged with, beside its own bytes.
#[derive(Clone, Copy)]
pub struct Judge {
    pub installed: u32,
    pub delay: u32,
    pub ram: u32,
    pub paper: u32,
}

/// What can be wrong, and how many damaged records have to be wrong in that
/// alone.
pub type Wrong = (&'static str, u64, fn(&Judge, &[u8]) -> bool);

#[rustfmt::skip]
pub const WRONGS: [Wrong; 39] = [
    ("a word that holds nothing is not 0", 800, |_, r| (UNUSED..WORDS).any(|place| word(r, place) != 0)),
    ("a kind over 4", 400, |_, r| word(r, KIND) > 4),
    ("words beside kind 0", 800, |_, r| kind(r, NOTHING) && [WHICH, OLD, OLD_LOW].iter().any(|place| word(r, *place) != 0)),
    ("a register's number", 600, |_, r| kind(r, REGISTER) && !(1..=31).contains(&word(r, WHICH))),
    ("a word beside a register", 700, |_, r| kind(r, REGISTER) && word(r, OLD_LOW) != 0),
    ("a row's index", 400, |_, r| kind(r, ROW) && word(r, WHICH) > 15),
    ("a RAM place that is not a multiple of 4", 700, |_, r| kind(r, RAM_WORD) && word(r, WHICH) % 4 != 0),
    ("a distance over 65,535", 700, |_, r| kind(r, RAM_WORD) && word(r, DISTANCE) > 65_535),
    ("no register of a disk", 400, |_, r| kind(r, DISK_WORD) && !register(word(r, WHICH))),
    ("a disk's how over 3", 200, |_, r| disks().any(|k| how(r, k) > 3)),
    ("words of a disk that was not at work", 900, |_, r| disks().any(|k| how(r, k) == 0 && ((0..4).any(|field| word(r, disk(k, field)) != 0) || distance(r, k) != 0))),
    ("a printer over 7 wrote", 700, |_, r| word(r, PRINTED) > 0xFF),
    ("a byte of a printer that did not write", 700, |_, r| (0..8).any(|k| !wrote(r, k) && r[PAPER_BYTES + k] != 0)),
    ("a RAM place outside RAM", 400, |judge, r| kind(r, RAM_WORD) && word(r, WHICH) / 4 >= judge.ram / 4),
    ("a paper place outside the paper", 250, |judge, r| (0..8).any(|k| wrote(r, k) && judge.outside_paper(r, k))),
    ("a slot flag over 1", 300, |_, r| word(r, SLOT_FLAG) > 1),
    ("a branch address without the flag", 300, |_, r| word(r, SLOT_FLAG) == 0 && word(r, BRANCH_ADDRESS) != 0),
    ("Status outside its mask", 300, |_, r| word(r, STATUS) & !0x1740_FF3F != 0),
    ("Cause outside its mask", 100, |_, r| word(r, CAUSE) & !0xB000_FF7C != 0),
    ("an ExcCode over 12", 150, |_, r| word(r, CAUSE) >> 2 & 31 > 12),
    ("IP[6] against the pending map", 60, |_, r| (word(r, CAUSE) >> 14 & 1 != 0) != (word(r, PENDING) != 0)),
    // There are no disks here: none can be at work, pending or written to.
    ("a disk at work", 900, |_, r| disks().any(|k| (1..=3).contains(&how(r, k)))),
    ("a disk pending", 500, |_, r| word(r, DISKS_PENDING) != 0),
    ("a value of a disk's register", 400, |_, r| kind(r, DISK_WORD) && register(word(r, WHICH)) && (word(r, OLD) != 0 || word(r, OLD_STATUS) != 0)),
    ("IP[3], IP[4], IP[5] or IP[7]", 80, |_, r| word(r, CAUSE) & 0xB800 != 0),
    ("Index outside its mask", 150, |_, r| word(r, INDEX) & !0x8000_3F00 != 0),
    ("Random", 800, |_, r| !(1..=15).map(|field| field << 8).any(|random| random == word(r, RANDOM))),
    ("EntryHi outside its mask", 40, |_, r| word(r, ENTRY_HI) & !0xFFFF_FFC0 != 0),
    ("EntryLo outside its mask", 50, |_, r| word(r, ENTRY_LO) & !0xFFFF_FF00 != 0),
    ("a row's high word outside its mask", 350, |_, r| kind(r, ROW) && word(r, OLD) & !0xFFFF_FFC0 != 0),
    ("a row's low word outside its mask", 350, |_, r| kind(r, ROW) && word(r, OLD_LOW) & !0xFFFF_FF00 != 0),
    ("pending but not installed", 250, |judge, r| word(r, PENDING) & !judge.installed != 0),
    ("a printer that is not installed is not 0", 900, |judge, r| (0..8).any(|k| !judge.has(k) && (0..5).any(|field| of(r, k, field) != 0))),
    ("STATUS not 1 to 4", 400, |judge, r| judge.any(|k| !(1..=4).contains(&of(r, k, PRINTER_STATUS)))),
    ("busy, ticks left not 1 to the delay", 120, |judge, r| judge.any(|k| busy(r, k) && !(1..=judge.delay).contains(&of(r, k, TICKS)))),
    ("idle with ticks left", 600, |judge, r| judge.any(|k| !busy(r, k) && of(r, k, TICKS) != 0)),
    ("busy and pending", 80, |judge, r| judge.any(|k| busy(r, k) && word(r, PENDING) >> k & 1 != 0)),
    ("busy, COMMAND neither 0 nor 2", 100, |judge, r| judge.any(|k| busy(r, k) && ![0, 2].contains(&of(r, k, COMMAND)))),
    ("a paper count over its eighth", 500, |judge, r| judge.any(|k| of(r, k, COUNT) > judge.paper / 8)),
];

fn kind(record: &[u8], kind: u32) -> bool {
    word(record, KIND) == kind
}

pub fn wrote(record: &[u8], number: usize) -> bool {
    word(record, PRINTED) >> number & 1 != 0
}

fn of(record: &[u8], number: usize, field: usize) -> u32 {
    word(record, printer(number, field))
}

fn busy(record: &[u8], number: usize) -> bool {
    of(record, number, PRINTER_STATUS) == 3
}

fn disks() -> std::ops::Range<usize> {
    0..8
}

fn how(record: &[u8], number: usize) -> u32 {
    word(record, disk(number, HOW)) & 0xFFFF
}

fn distance(record: &[u8], number: usize) -> u16 {
    let at = disk_distance(number);
    u16::from_le_bytes([record[at], record[at + 1]])
}

/// Whether an offset in the device area is COMMAND or DATA0 of a disk.
fn register(offset: u32) -> bool {
    (0..8).any(|number| [4, 8].iter().any(|field| offset == disk_register(number, *field)))
}

impl Judge {
    pub fn new(machine: &Machine, ram: usize, paper: usize) -> Judge {
        Judge {
            installed: machine.installed,
            delay: machine.printer_delay,
            ram: ram as u32,
            paper: paper as u32,
        }
    }

    fn has(&self, number: usize) -> bool {
        self.installed >> number & 1 != 0
    }

    fn any(&self, wrong: impl Fn(usize) -> bool) -> bool {
        (0..8).any(|number| self.has(number) && wrong(number))
    }

    /// The place of a printer's byte, as a number that does not wrap.
    pub fn place(&self, record: &[u8], number: usize) -> u64 {
        number as u64 * u64::from(self.paper / 8) + u64::from(of(record, number, COUNT))
    }

    fn outside_paper(&self, record: &[u8], number: usize) -> bool {
        self.place(record, number) >= u64::from(self.paper)
    }

    /// Bit n is on where the n-th of WRONGS holds; 0 for a well-formed record.
    pub fn wrongs(&self, record: &[u8]) -> u64 {
        let found = WRONGS.iter().enumerate().filter(|(_, (_, _, wrong))| wrong(self, record));
        found.map(|(number, _)| 1 << number).sum()
    }
}
