//! Reset, with its refusals.

use crate::answer::{Answer, NO_REASON};
use crate::image::{encode, IMAGE_BYTES};
use crate::machine::{Disk, Machine};
use crate::printer::READY;
use crate::sizes::{
    any_index_fits, disks_parameters_fit, installed_fits, printer_delay_fits, time_scale_fits,
};
use crate::status::Status;

#[allow(clippy::too_many_arguments)]
pub fn reset(
    image: &mut [u8],
    index: &mut [u8],
    time_scale: u64,
    printer_delay: u64,
    installed: u64,
    disks: u64,
    geometry: [u64; 8],
) -> Answer {
    if image.len() != IMAGE_BYTES {
        return Answer::refused(5);
    }
    if !(time_scale_fits(time_scale)
        && printer_delay_fits(printer_delay)
        && installed_fits(installed)
        && disks_parameters_fit(disks, geometry))
    {
        return Answer::refused(6);
    }
    if !any_index_fits(index.len()) {
        return Answer::refused(10);
    }
    let mut machine = fresh();
    machine.time_scale = time_scale as u32;
    machine.printer_delay = printer_delay as u32;
    install(&mut machine, installed as u32, disks as u32, geometry);
    encode(&machine, image);
    index.fill(0);
    Answer::done(NO_REASON, 0)
}

/// What no parameter says.
fn fresh() -> Machine {
    Machine {
        pc: 0x1FC0_0000,
        next_pc: 0x1FC0_0004,
        status: Status(0x1040_0000),
        random: 15 << 8,
        timer: 0xFFFF_FFFF,
        ..Machine::default()
    }
}

fn install(machine: &mut Machine, printers: u32, disks: u32, geometry: [u64; 8]) {
    machine.installed = printers;
    machine.disks_installed = disks;
    for (number, data1) in geometry.into_iter().enumerate() {
        if printers >> number & 1 != 0 {
            machine.printers[number].status = READY;
        }
        if disks >> number & 1 != 0 {
            let data1 = data1 as u32;
            machine.disks[number] = Disk { status: READY, data1, ..Disk::default() };
        }
    }
}
