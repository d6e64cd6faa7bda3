//! The ranges of rows 1 to 4, 6, 10 and 13.

use crate::machine::Machine;

pub const RECORD_BYTES: usize = 512;

/// Of the records beside an image of the version before.
const OLD_RECORD_BYTES: usize = 256;

const MOST_JOURNAL_BYTES: usize = 16_777_216;

pub const FRAME_BYTES: usize = 4_096;

const MOST_FRAMES: usize = 4_096;

/// Of the index, for each frame.
pub const ENTRY_BYTES: usize = 16;

pub fn ram_fits(length: usize) -> bool {
    length % FRAME_BYTES == 0 && (1..=MOST_FRAMES).contains(&(length / FRAME_BYTES))
}

pub fn rom_fits(length: usize) -> bool {
    length % 4 == 0 && (4..=65_536).contains(&length)
}

pub fn paper_fits(length: usize) -> bool {
    length % 8 == 0 && length <= 65_536
}

pub fn journal_fits(length: usize) -> bool {
    length % RECORD_BYTES == 0 && length <= MOST_JOURNAL_BYTES
}

pub fn old_journal_fits(length: usize) -> bool {
    length % OLD_RECORD_BYTES == 0 && length <= MOST_JOURNAL_BYTES
}

pub fn time_scale_fits(time_scale: u64) -> bool {
    (1..=255).contains(&time_scale)
}

pub fn printer_delay_fits(printer_delay: u64) -> bool {
    (1..=65_535).contains(&printer_delay)
}

pub fn installed_fits(installed: u64) -> bool {
    installed <= 255
}

/// A disk that is not in the map has no geometry.
pub fn disks_parameters_fit(disks: u64, geometry: [u64; 8]) -> bool {
    installed_fits(disks)
        && (0..8).all(|number| {
            let most = if disks >> number & 1 != 0 { u64::from(u32::MAX) } else { 0 };
            geometry[number] <= most
        })
}

pub fn budget_fits(budget: u64) -> bool {
    budget <= 1_000_000
}

/// With RAM that fits.
pub fn index_fits(length: usize, ram_len: usize) -> bool {
    length == ram_len / FRAME_BYTES * ENTRY_BYTES
}

/// At a reset, where no RAM is lent.
pub fn any_index_fits(length: usize) -> bool {
    length % ENTRY_BYTES == 0 && (1..=MOST_FRAMES).contains(&(length / ENTRY_BYTES))
}

/// Row 13. A disk that is not installed has geometry 0, and so no bytes.
pub fn disks_fit(machine: &Machine, lengths: [usize; 8]) -> bool {
    machine.disks.iter().zip(lengths).all(|(disk, length)| length as u64 == disk.bytes())
}

pub fn record_slots(journal_len: usize) -> usize {
    journal_len / RECORD_BYTES
}

pub fn old_record_slots(journal_len: usize) -> usize {
    journal_len / OLD_RECORD_BYTES
}
