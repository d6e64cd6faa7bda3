//! What the words of a disk say, by the readings of request L4 and not taken from
//! the reference.

use crate::faults::Fault::{self, *};
use crate::look::RAM;
use reference::Disk;

pub const READY: u32 = 1;
pub const ILLEGAL: u32 = 2;
pub const BUSY: u32 = 3;

pub const RESET: u32 = 0;
pub const ACK: u32 = 1;
pub const SEEK: u32 = 2;
pub const READ: u32 = 3;
pub const WRITE: u32 = 4;

pub const LINE: u32 = 1 << 11;

pub fn code(disk: &Disk) -> u32 {
    disk.command & 0xFF
}

pub fn moves_words(disk: &Disk) -> bool {
    disk.status == BUSY && [READ, WRITE].contains(&code(disk))
}

pub fn cylinders(disk: &Disk) -> u32 {
    disk.data1 >> 16
}

pub fn heads(disk: &Disk) -> u32 {
    disk.data1 >> 8 & 0xFF
}

pub fn sectors(disk: &Disk) -> u32 {
    disk.data1 & 0xFF
}

pub fn bytes(disk: &Disk) -> u64 {
    u64::from(cylinders(disk)) * u64::from(heads(disk)) * u64::from(sectors(disk)) * 4_096
}

/// CYLNUM of a seek.
pub fn cylnum(disk: &Disk) -> u32 {
    disk.command >> 8 & 0xFFFF
}

pub fn headnum(disk: &Disk) -> u32 {
    disk.command >> 16 & 0xFF
}

pub fn sectnum(disk: &Disk) -> u32 {
    disk.command >> 8 & 0xFF
}

/// How many bytes of its block have been moved.
fn moved(disk: &Disk) -> u64 {
    4 * u64::from(1_024u32.saturating_sub(disk.words_left))
}

/// The place on the disk of the word to come.
pub fn on_disk(fault: Fault, disk: &Disk) -> u64 {
    let (mut head, mut sector) = (headnum(disk), sectnum(disk));
    if fault == HeadAndSectorSwapped {
        (head, sector) = (sector, head);
    }
    let cylinder = if fault == BlocksOfCylinderNull { 0 } else { disk.cylinder };
    let track = u64::from(cylinder) * u64::from(heads(disk)) + u64::from(head);
    let block = track * u64::from(sectors(disk)) + u64::from(sector);
    block * 4_096 + moved(disk)
}

/// The same in RAM, counted from its start.
pub fn in_ram(disk: &Disk) -> usize {
    disk.data0.wrapping_sub(RAM) as usize + moved(disk) as usize
}
