//! The layout of the record of a step: 128 words, least significant byte first.
//! Numbers are those of words, if nothing else is said. `layout_disks` has the
//! part of the disks.

pub use crate::layout_disks::*;
pub use crate::sizes::RECORD_BYTES;

pub type Record = [u8; RECORD_BYTES];

/// HI, the first of the sixteen words that are saved in every step.
pub const HI: usize = 0;
pub const LO: usize = 1;
pub const PC: usize = 2;
pub const NEXT_PC: usize = 3;
pub const INDEX: usize = 4;
pub const RANDOM: usize = 5;
pub const ENTRY_HI: usize = 6;
pub const ENTRY_LO: usize = 7;
pub const BAD_VADDR: usize = 8;
pub const STATUS: usize = 9;
pub const CAUSE: usize = 10;
pub const EPC: usize = 11;
pub const SLOT_FLAG: usize = 12;
pub const BRANCH_ADDRESS: usize = 13;
pub const TIMER: usize = 14;
pub const PENDING: usize = 15;

/// Bit k is on where printer k wrote on paper.
pub const PRINTED: usize = 16;

/// The byte, not the word, at which the eight overwritten paper bytes start.
pub const PAPER_BYTES: usize = 4 * 17;

/// Eight printers of five words.
pub const PRINTERS: usize = 19;
pub const PRINTER_WORDS: usize = 5;

/// What else was overwritten, and three words on it.
pub const KIND: usize = 59;
pub const WHICH: usize = 60;
pub const OLD: usize = 61;
pub const OLD_LOW: usize = 62;

/// Of a RAM word, in the place of OLD_LOW: how many steps before this one the
/// step was that changed the word's frame last; 0 where none was on hand.
pub const DISTANCE: usize = 62;

/// Of a disk's word, in the place of OLD_LOW: the disk's STATUS.
pub const OLD_STATUS: usize = 62;

/// The layout has room for no more; no step on hand is even half as far back.
const MOST_DISTANCE: u32 = 65_535;

pub const NOTHING: u32 = 0;
pub const REGISTER: u32 = 1;
pub const TLB_ROW: u32 = 2;
pub const RAM_WORD: u32 = 3;
pub const DISK_WORD: u32 = 4;

/// The words that hold nothing end the record.
pub const UNUSED: usize = 100;
pub const WORDS: usize = RECORD_BYTES / 4;

#[inline]
pub fn word(record: &Record, number: usize) -> u32 {
    let at = number * 4;
    u32::from_le_bytes([record[at], record[at + 1], record[at + 2], record[at + 3]])
}

#[inline]
pub fn set_word(record: &mut Record, number: usize, value: u32) {
    let at = number * 4;
    record[at..at + 4].copy_from_slice(&value.to_le_bytes());
}

/// Whether the bytes keep the layout; places and the image's rules are not
/// part of it.
pub fn keeps_layout(record: &Record) -> bool {
    record[4 * UNUSED..].iter().all(|byte| *byte == 0)
        && kind_keeps_layout(record)
        && paper_keeps_layout(record)
        && disks_keep_layout(record)
}

fn kind_keeps_layout(record: &Record) -> bool {
    let (which, old, old_low) = (word(record, WHICH), word(record, OLD), word(record, OLD_LOW));
    match word(record, KIND) {
        NOTHING => which == 0 && old == 0 && old_low == 0,
        REGISTER => (1..=31).contains(&which) && old_low == 0,
        TLB_ROW => which <= 15,
        RAM_WORD => which % 4 == 0 && word(record, DISTANCE) <= MOST_DISTANCE,
        DISK_WORD => disk_register(which).is_some(),
        _ => false,
    }
}

/// A printer that did not write has no byte.
fn paper_keeps_layout(record: &Record) -> bool {
    let printed = word(record, PRINTED);
    printed <= 0xFF
        && (0..8).all(|number| printed >> number & 1 != 0 || record[PAPER_BYTES + number] == 0)
}
