//! The words of the device area (the manual's 5.1 and 5.2).

use crate::disk;
use crate::exception::IP_TIMER;
use crate::machine::Machine;
use crate::memory::{Memory, BOOTSTRAP_ROM_BASE, EXECUTION_ROM_BASE, RAM_BASE};
use crate::printer;
use crate::record::Recorder;

const TIMER: u32 = 0x20;
const INSTALLED_LINE_3: u32 = 0x28;
const INSTALLED_LINE_6: u32 = 0x34;
const PENDING_LINE_3: u32 = 0x3C;
const PENDING_LINE_6: u32 = 0x48;
const DEVICES: u32 = 0x50;
const LINE_BYTES: u32 = 0x80;
const DEVICE_BYTES: u32 = 0x10;
const DISK_LINE: u32 = 3;
const PRINTER_LINE: u32 = 6;

const STATUS: u32 = 0x0;
pub const COMMAND: u32 = 0x4;
pub const DATA0: u32 = 0x8;

/// Device number and field of a device word on a line.
fn field_on(line: u32, offset: u32) -> Option<(usize, u32)> {
    let within = offset.checked_sub(DEVICES + (line - 3) * LINE_BYTES)?;
    let number = within / DEVICE_BYTES;
    (within < LINE_BYTES).then_some((number as usize, within % DEVICE_BYTES))
}

pub fn disk_field(offset: u32) -> Option<(usize, u32)> {
    field_on(DISK_LINE, offset)
}

pub fn read(machine: &Machine, memory: &Memory, offset: u32) -> u32 {
    if let Some((number, field)) = field_on(PRINTER_LINE, offset) {
        let printer = &machine.printers[number];
        return match field {
            STATUS => printer.status,
            COMMAND => printer.command,
            DATA0 => printer.data0,
            _ => 0,
        };
    }
    if let Some((number, field)) = disk_field(offset) {
        let disk = &machine.disks[number];
        return match field {
            STATUS => disk.status,
            COMMAND => disk.command,
            DATA0 => disk.data0,
            _ => disk.data1,
        };
    }
    bus_word(machine, memory, offset)
}

fn bus_word(machine: &Machine, memory: &Memory, offset: u32) -> u32 {
    match offset {
        0x00 => RAM_BASE,
        0x04 => memory.ram.len() as u32,
        0x08 => EXECUTION_ROM_BASE,
        0x0C => memory.execution_rom.len() as u32,
        0x10 => BOOTSTRAP_ROM_BASE,
        0x14 => memory.bootstrap_rom.len() as u32,
        0x18 => (machine.clock >> 32) as u32,
        0x1C => machine.clock as u32,
        TIMER => machine.timer,
        0x24 => machine.time_scale,
        INSTALLED_LINE_3 => machine.disks_installed,
        INSTALLED_LINE_6 => machine.installed,
        PENDING_LINE_3 => machine.disks_pending,
        PENDING_LINE_6 => machine.pending,
        _ => 0,
    }
}

pub fn write<R: Recorder>(
    machine: &mut Machine,
    ram_len: usize,
    recorder: &mut R,
    offset: u32,
    value: u32,
) {
    if let Some((number, field)) = disk_field(offset) {
        return write_disk(machine, ram_len, recorder, number, field, value);
    }
    match field_on(PRINTER_LINE, offset) {
        Some((number, COMMAND)) => printer::write_command(machine, number, value),
        Some((number, DATA0)) => printer::write_data0(machine, number, value),
        None if offset == TIMER => {
            machine.timer = value;
            machine.cause &= !IP_TIMER;
        }
        _ => {}
    }
}

/// The recorder is told whether or not the disk will take the value, but only of an
/// installed one: the words of any other are 0 and stay so.
fn write_disk<R: Recorder>(
    machine: &mut Machine,
    ram_len: usize,
    recorder: &mut R,
    number: usize,
    field: u32,
    value: u32,
) {
    if machine.disks_installed >> number & 1 == 0 {
        return;
    }
    let disk = machine.disks[number];
    let offset = DEVICES + number as u32 * DEVICE_BYTES + field;
    match field {
        COMMAND => {
            recorder.disk_word(number, offset, disk.command, disk.status);
            disk::write_command(machine, ram_len, number, value);
        }
        DATA0 => {
            recorder.disk_word(number, offset, disk.data0, disk.status);
            disk::write_data0(machine, number, value);
        }
        _ => {}
    }
}
