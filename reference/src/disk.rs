//! The disks of line 3: commands, and part 2 of a step (request L4).

use crate::exception::IP_DISKS;
use crate::geometry::{ACK, BLOCK_WORDS, READBLK, RESET, SEEKCYL, WRITEBLK};
use crate::machine::{Disk, Machine};
use crate::memory::{ram_place, Memory};
use crate::printer::{BUSY, ILLEGAL, READY};
use crate::transfer::move_word;

const SEEK_ERROR: u32 = 4;
const READ_ERROR: u32 = 5;
const WRITE_ERROR: u32 = 6;
const DMA_ERROR: u32 = 7;

/// An installed disk that is not busy; a busy one ignores writes.
fn idle(machine: &mut Machine, number: usize) -> Option<&mut Disk> {
    (machine.disks_busy >> number & 1 == 0).then(|| &mut machine.disks[number])
}

pub fn write_data0(machine: &mut Machine, number: usize, value: u32) {
    if let Some(disk) = idle(machine, number) {
        disk.data0 = value;
    }
}

pub fn write_command(machine: &mut Machine, ram_len: usize, number: usize, value: u32) {
    let delay = machine.printer_delay;
    let disk = match idle(machine, number) {
        Some(disk) => disk,
        None => return,
    };
    disk.command = value;
    disk.status = status_at_once(disk, ram_len);
    let now = disk.status;
    if now == BUSY {
        if moves_words(disk) {
            disk.words_left = BLOCK_WORDS;
        } else {
            disk.ticks_left = delay;
        }
        machine.disks_busy |= 1 << number;
    }
    set_pending(machine, number, now != BUSY && now != READY);
}

pub fn moves_words(disk: &Disk) -> bool {
    matches!(disk.code(), READBLK | WRITEBLK)
}

/// What a command leads to at once: work, an end, or the error that its
/// parameters are. Those of the block come before DATA0.
pub fn status_at_once(disk: &Disk, ram_len: usize) -> u32 {
    match disk.code() {
        RESET => BUSY,
        ACK => READY,
        SEEKCYL if disk.cylinder_asked() >= disk.cylinders() => SEEK_ERROR,
        READBLK if !disk.block_is_on_disk() => READ_ERROR,
        WRITEBLK if !disk.block_is_on_disk() => WRITE_ERROR,
        READBLK | WRITEBLK if !disk.block_is_in_ram(ram_len) => DMA_ERROR,
        SEEKCYL | READBLK | WRITEBLK => BUSY,
        _ => ILLEGAL,
    }
}

/// IP[3] always tells whether the map is empty.
fn set_pending(machine: &mut Machine, number: usize, on: bool) {
    machine.disks_pending = machine.disks_pending & !(1 << number) | u32::from(on) << number;
    machine.cause = if machine.disks_pending != 0 {
        machine.cause | IP_DISKS
    } else {
        machine.cause & !IP_DISKS
    };
}

/// In the order of their numbers: each sees what those before it left in RAM.
#[cold]
pub fn tick(machine: &mut Machine, memory: Memory) {
    for number in 0..8 {
        if machine.disks_busy >> number & 1 == 0 {
            continue;
        }
        let disk = &mut machine.disks[number];
        let left = if moves_words(disk) {
            move_word(disk, memory.ram, memory.disks[number]);
            &mut disk.words_left
        } else {
            &mut disk.ticks_left
        };
        *left -= 1;
        if *left == 0 {
            finish(machine, number);
        }
    }
}

fn finish(machine: &mut Machine, number: usize) {
    let disk = &mut machine.disks[number];
    disk.status = READY;
    match disk.code() {
        RESET => disk.cylinder = 0,
        SEEKCYL => disk.cylinder = disk.cylinder_asked(),
        _ => {}
    }
    machine.disks_busy &= !(1 << number);
    set_pending(machine, number, true);
}

/// Whether a disk will be done with the next tick.
pub fn finishes(disk: &Disk) -> bool {
    disk.ticks_left == 1 || disk.words_left == 1
}

/// The word that the next tick will move to the place of an address, if any: of
/// several disks the last one's stands.
#[cold]
pub fn word_to_come(machine: &Machine, disks: [&[u8]; 8], address: u32) -> Option<u32> {
    (0..8).rev().find_map(|number| {
        let disk = &machine.disks[number];
        let reads = machine.disks_busy >> number & 1 != 0 && disk.code() == READBLK;
        if !reads || disk.place_in_ram() != ram_place(address) {
            return None;
        }
        let from = disk.place_on_disk() as usize;
        let bytes = disks[number][from..from + 4].try_into().expect("four bytes");
        Some(u32::from_le_bytes(bytes))
    })
}
