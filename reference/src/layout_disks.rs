//! The part of a record that tells of the disks.

use crate::bus::{disk_field, COMMAND, DATA0};
use crate::layout::{set_word, word, Record};

pub const DISKS_PENDING: usize = 63;

/// Eight disks of four words: how with the cylinder, ticks left with words left,
/// a place in RAM, four bytes.
pub const DISKS: usize = 64;
pub const DISK_WORDS: usize = 4;

/// The eight distances, two to a word.
pub const DISTANCES: usize = 96;

/// What a disk did in the step.
pub const NOT_AT_WORK: u32 = 0;
pub const MOVED_NO_WORD: u32 = 1;
pub const READ_A_WORD: u32 = 2;
pub const WROTE_A_WORD: u32 = 3;

/// What a record holds of one disk but its distance, as it was before the step.
#[derive(Clone, Copy, Debug, Default, PartialEq, Eq)]
pub struct DiskPart {
    pub how: u32,
    pub cylinder: u32,
    pub ticks_left: u32,
    pub words_left: u32,
    /// The place in RAM that it read a word to.
    pub place: u32,
    /// What its word overwrote, on the disk or in RAM.
    pub bytes: u32,
}

pub fn disk_part(record: &Record, number: usize) -> DiskPart {
    let at = DISKS + number * DISK_WORDS;
    let (how, left) = (word(record, at), word(record, at + 1));
    DiskPart {
        how: how & 0xFFFF,
        cylinder: how >> 16,
        ticks_left: left & 0xFFFF,
        words_left: left >> 16,
        place: word(record, at + 2),
        bytes: word(record, at + 3),
    }
}

pub fn set_disk_part(record: &mut Record, number: usize, part: DiskPart) {
    let at = DISKS + number * DISK_WORDS;
    set_word(record, at, part.how | part.cylinder << 16);
    set_word(record, at + 1, part.ticks_left | part.words_left << 16);
    set_word(record, at + 2, part.place);
    set_word(record, at + 3, part.bytes);
}

pub fn distance(record: &Record, number: usize) -> u32 {
    word(record, DISTANCES + number / 2) >> shift(number) & 0xFFFF
}

pub fn set_distance(record: &mut Record, number: usize, value: u32) {
    let at = DISTANCES + number / 2;
    let others = word(record, at) & !(0xFFFF << shift(number));
    set_word(record, at, others | value << shift(number));
}

fn shift(number: usize) -> usize {
    number % 2 * 16
}

/// The disk and its register, COMMAND or DATA0, at an offset in the device area.
pub fn disk_register(offset: u32) -> Option<(usize, u32)> {
    disk_field(offset).filter(|(_, field)| matches!(*field, COMMAND | DATA0))
}

/// Whether a disk may have read a word into RAM: none did where none was at work. It
/// is asked of every record that drops off, so that it looks at no more than it has
/// to.
#[inline]
pub fn some_disk_worked(record: &Record) -> bool {
    let first = |number| word(record, DISKS + number * DISK_WORDS);
    (0..8).fold(0, |all, number| all | first(number)) != 0
}

pub(crate) fn disks_keep_layout(record: &Record) -> bool {
    (0..8).all(|number| {
        let part = disk_part(record, number);
        let reads = part.how == READ_A_WORD;
        part.how <= WROTE_A_WORD
            && (part.how != NOT_AT_WORK || part == DiskPart::default())
            && (if reads { part.place % 4 == 0 } else { part.place == 0 })
            && (part.how >= READ_A_WORD || part.bytes == 0)
            && (reads || distance(record, number) == 0)
    })
}
