//! One step undone in all that the image holds.

use crate::bus::COMMAND;
use crate::layout::*;
use crate::machine::{Entry, Machine, Printer};
use crate::printer::BUSY;
use crate::status::Status;

/// From a record that keeps the layout. The maps of busy devices are left; they
/// are no part of the image.
pub fn undo(machine: &mut Machine, record: &Record, slots: u32) {
    undo_processor(machine, record);
    for (number, printer) in machine.printers.iter_mut().enumerate() {
        let at = PRINTERS + number * PRINTER_WORDS;
        *printer = Printer {
            status: word(record, at),
            command: word(record, at + 1),
            data0: word(record, at + 2),
            ticks_left: word(record, at + 3),
            paper_count: word(record, at + 4),
        };
    }
    undo_kind(machine, record);
    undo_disks(machine, record);
    // Counted back from where they stand, never taken from a record.
    machine.on_hand -= 1;
    machine.next_slot = machine.next_slot.checked_sub(1).unwrap_or(slots - 1);
}

fn undo_processor(machine: &mut Machine, record: &Record) {
    machine.hi = word(record, HI);
    machine.lo = word(record, LO);
    machine.pc = word(record, PC);
    machine.next_pc = word(record, NEXT_PC);
    machine.index = word(record, INDEX);
    machine.random = word(record, RANDOM);
    machine.entry_hi = word(record, ENTRY_HI);
    machine.entry_lo = word(record, ENTRY_LO);
    machine.bad_vaddr = word(record, BAD_VADDR);
    machine.status = Status(word(record, STATUS));
    machine.cause = word(record, CAUSE);
    machine.epc = word(record, EPC);
    machine.slot_flag = word(record, SLOT_FLAG);
    machine.branch_address = word(record, BRANCH_ADDRESS);
    machine.timer = word(record, TIMER);
    machine.pending = word(record, PENDING);
    machine.clock = machine.clock.wrapping_sub(1);
}

fn undo_kind(machine: &mut Machine, record: &Record) {
    let which = word(record, WHICH);
    let old = word(record, OLD);
    match word(record, KIND) {
        REGISTER => machine.registers[which as usize] = old,
        TLB_ROW => {
            machine.tlb[which as usize] = Entry { high: old, low: word(record, OLD_LOW) };
        }
        DISK_WORD => {
            let (number, field) = disk_register(which).expect("the layout is kept");
            let disk = &mut machine.disks[number];
            let register = if field == COMMAND { &mut disk.command } else { &mut disk.data0 };
            *register = old;
            disk.status = word(record, OLD_STATUS);
            disk.ticks_left = 0;
            disk.words_left = 0;
        }
        _ => {}
    }
}

/// Behind the kind, which may have left a disk idle that was at work.
fn undo_disks(machine: &mut Machine, record: &Record) {
    machine.disks_pending = word(record, DISKS_PENDING);
    for (number, disk) in machine.disks.iter_mut().enumerate() {
        let part = disk_part(record, number);
        if part.how != NOT_AT_WORK {
            disk.status = BUSY;
            disk.ticks_left = part.ticks_left;
            disk.words_left = part.words_left;
            disk.cylinder = part.cylinder;
        }
    }
}
