//! The printers of line 6: commands, and part 2 of a step.

use crate::exception::IP_PRINTERS;
use crate::machine::{Machine, Printer};
use crate::record::Recorder;

pub const READY: u32 = 1;
pub const ILLEGAL: u32 = 2;
pub const BUSY: u32 = 3;
pub const PRINT_ERROR: u32 = 4;

pub const RESET: u32 = 0;
pub const ACK: u32 = 1;
pub const PRINTCHR: u32 = 2;

/// An installed printer that is not busy; all others ignore writes.
fn idle(machine: &mut Machine, number: usize) -> Option<&mut Printer> {
    let taken = !machine.installed | machine.busy;
    (taken >> number & 1 == 0).then(|| &mut machine.printers[number])
}

pub fn write_data0(machine: &mut Machine, number: usize, value: u32) {
    if let Some(printer) = idle(machine, number) {
        printer.data0 = value;
    }
}

pub fn write_command(machine: &mut Machine, number: usize, value: u32) {
    let delay = machine.printer_delay;
    let printer = match idle(machine, number) {
        Some(printer) => printer,
        None => return,
    };
    printer.command = value;
    printer.status = match value {
        RESET | PRINTCHR => BUSY,
        ACK => READY,
        _ => ILLEGAL,
    };
    let now = printer.status;
    if now == BUSY {
        printer.ticks_left = delay;
        machine.busy |= 1 << number;
    }
    set_pending(machine, number, now == ILLEGAL);
}

/// IP[6] always tells whether the map is empty; it is never a latch.
fn set_pending(machine: &mut Machine, number: usize, on: bool) {
    machine.pending = machine.pending & !(1 << number) | u32::from(on) << number;
    machine.cause = if machine.pending != 0 {
        machine.cause | IP_PRINTERS
    } else {
        machine.cause & !IP_PRINTERS
    };
}

pub fn tick<R: Recorder>(machine: &mut Machine, paper: &mut [u8], recorder: &mut R) {
    for number in 0..8 {
        if machine.busy >> number & 1 == 0 {
            continue;
        }
        machine.printers[number].ticks_left -= 1;
        if machine.printers[number].ticks_left == 0 {
            finish(machine, number, paper, recorder);
        }
    }
}

fn finish<R: Recorder>(machine: &mut Machine, number: usize, paper: &mut [u8], recorder: &mut R) {
    let eighth = paper.len() / 8;
    let printer = &mut machine.printers[number];
    let count = printer.paper_count as usize;
    printer.status = READY;
    if printer.command == PRINTCHR {
        if count < eighth {
            let place = number * eighth + count;
            recorder.paper_byte(number, place, paper[place]);
            paper[place] = printer.data0 as u8;
            printer.paper_count += 1;
        } else {
            printer.status = PRINT_ERROR;
        }
    }
    machine.busy &= !(1 << number);
    set_pending(machine, number, true);
}
