//! The rules of the state image.

use crate::cp0::{ENTRY_HI_MASK, ENTRY_LO_MASK};
use crate::disk;
use crate::exception::{CAUSE_MASK, EXC_CODE_SHIFT, HIGHEST_CODE, IP_DISKS, IP_PRINTERS};
use crate::geometry::BLOCK_WORDS;
use crate::image::{decode, decode_old, BEFORE, PRESENT};
use crate::machine::{Disk, Machine, Printer};
use crate::printer::{BUSY, PRINTCHR, RESET};
use crate::sizes::{
    installed_fits, old_record_slots, printer_delay_fits, record_slots, time_scale_fits,
};
use crate::status;

const INDEX_MASK: u32 = 0x8000_3F00;

/// IP[4], IP[5] and IP[7]: lines without a device.
const IP_EMPTY_LINES: u32 = 0xB000;

/// Whether an image keeps the rules, with RAM, paper and journal of these lengths.
pub fn keeps_rules(image: &[u8], ram_len: usize, paper_len: usize, journal_len: usize) -> bool {
    PRESENT.is_of(image)
        && machine_keeps_rules(&decode(image), ram_len, paper_len, record_slots(journal_len))
}

/// The same of an image of the version before. Its rules are the present ones of a
/// machine without disks, for which RAM's length says nothing.
pub(crate) fn old_keeps_rules(image: &[u8], paper_len: usize, journal_len: usize) -> bool {
    BEFORE.is_of(image)
        && machine_keeps_rules(&decode_old(image), 0, paper_len, old_record_slots(journal_len))
}

pub(crate) fn machine_keeps_rules(
    machine: &Machine,
    ram_len: usize,
    paper_len: usize,
    slots: usize,
) -> bool {
    cp0_keeps_rules(machine)
        && time_scale_fits(machine.time_scale.into())
        && printer_delay_fits(machine.printer_delay.into())
        && installed_fits(machine.installed.into())
        && machine.pending & !machine.installed == 0
        && (0..8).all(|number| printer_keeps_rules(machine, number, paper_len))
        && installed_fits(machine.disks_installed.into())
        && machine.disks_pending & !machine.disks_installed == 0
        && (0..8).all(|number| disk_keeps_rules(machine, number, ram_len))
        && journal_place_keeps_rules(machine, slots)
        && slot_keeps_rules(machine)
}

fn cp0_keeps_rules(machine: &Machine) -> bool {
    machine.status.0 & !status::MASK == 0
        && cause_keeps_rules(machine)
        && machine.index & !INDEX_MASK == 0
        && machine.random & 0xFF == 0
        && (1..=15).contains(&(machine.random >> 8))
        && machine.entry_hi & !ENTRY_HI_MASK == 0
        && machine.entry_lo & !ENTRY_LO_MASK == 0
        && machine
            .tlb
            .iter()
            .all(|entry| entry.high & !ENTRY_HI_MASK == 0 && entry.low & !ENTRY_LO_MASK == 0)
}

fn cause_keeps_rules(machine: &Machine) -> bool {
    let cause = machine.cause;
    cause & !CAUSE_MASK == 0
        && cause >> EXC_CODE_SHIFT & 31 <= HIGHEST_CODE
        && (cause & IP_PRINTERS != 0) == (machine.pending != 0)
        && (cause & IP_DISKS != 0) == (machine.disks_pending != 0)
        && cause & IP_EMPTY_LINES == 0
}

fn printer_keeps_rules(machine: &Machine, number: usize, paper_len: usize) -> bool {
    let printer = &machine.printers[number];
    if machine.installed >> number & 1 == 0 {
        return *printer == Printer::default();
    }
    let pending = machine.pending >> number & 1 != 0;
    let ticks_fit = if printer.status == BUSY {
        (1..=machine.printer_delay).contains(&printer.ticks_left)
            && !pending
            && (printer.command == RESET || printer.command == PRINTCHR)
    } else {
        printer.ticks_left == 0
    };
    (1..=4).contains(&printer.status) && ticks_fit && printer.paper_count as usize <= paper_len / 8
}

fn disk_keeps_rules(machine: &Machine, number: usize, ram_len: usize) -> bool {
    let disk = &machine.disks[number];
    if machine.disks_installed >> number & 1 == 0 {
        return *disk == Disk::default();
    }
    let pending = machine.disks_pending >> number & 1 != 0;
    let work_fits = if disk.status == BUSY {
        !pending && work_keeps_rules(machine, disk, ram_len)
    } else {
        disk.ticks_left == 0 && disk.words_left == 0
    };
    (1..=7).contains(&disk.status)
        && work_fits
        && (disk.cylinder < disk.cylinders() || disk.cylinder == 0)
}

/// A disk at work is at what its command would start now.
fn work_keeps_rules(machine: &Machine, disk: &Disk, ram_len: usize) -> bool {
    let left_fits = if disk::moves_words(disk) {
        disk.ticks_left == 0 && (1..=BLOCK_WORDS).contains(&disk.words_left)
    } else {
        (1..=machine.printer_delay).contains(&disk.ticks_left) && disk.words_left == 0
    };
    left_fits && disk::status_at_once(disk, ram_len) == BUSY
}

fn journal_place_keeps_rules(machine: &Machine, slots: usize) -> bool {
    let next_slot = machine.next_slot as usize;
    let next_slot_fits = if slots == 0 { next_slot == 0 } else { next_slot < slots };
    machine.on_hand as usize <= slots && next_slot_fits
}

fn slot_keeps_rules(machine: &Machine) -> bool {
    match machine.slot_flag {
        0 => machine.branch_address == 0,
        flag => flag == 1,
    }
}
