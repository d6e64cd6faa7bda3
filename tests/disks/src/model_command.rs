//! Stores to and loads of the disks' registers: the tests' own, with a fault.

use crate::disk::{self, ACK, BUSY, ILLEGAL, LINE, READ, READY, RESET, SEEK, WRITE};
use crate::faults::Fault::{self, *};
use crate::look::RAM;
use reference::{Disk, Machine};

pub const COMMAND: u32 = 4;
pub const DATA0: u32 = 8;

/// Disk and field of an offset in the device area.
pub fn field(offset: u32) -> Option<(usize, u32)> {
    let within = offset.checked_sub(0x50).filter(|within| *within < 0x80)?;
    Some((within as usize / 16, within % 16))
}

fn block_on_disk(fault: Fault, disk: &Disk) -> bool {
    let whole = |count: u32| if fault == CountsOfNullAre256 && count == 0 { 256 } else { count };
    let cylinder = disk.cylinder < disk::cylinders(disk) || fault == NoCylinderIsLookedAt;
    cylinder
        && disk::headnum(disk) < whole(disk::heads(disk))
        && disk::sectnum(disk) < whole(disk::sectors(disk))
}

fn block_in_ram(fault: Fault, disk: &Disk, ram: usize) -> bool {
    let aligned = disk.data0 % 4 == 0 || fault == OddData0IsTaken;
    let room = match fault {
        LastBlockOfRamIsRefused => 4_097,
        BlockAcrossRamsEndIsTaken => 4,
        _ => 4_096,
    };
    let whole = fault != BlockAcrossFramesIsRefused || disk.data0 % 4_096 == 0;
    aligned && whole && disk.data0 >= RAM && u64::from(disk.data0 - RAM) + room <= ram as u64
}

/// 5 for a read, 6 for a write.
fn error(fault: Fault, code: u32) -> u32 {
    if (code == READ) == (fault == ErrorsOfReadAndWriteSwapped) {
        6
    } else {
        5
    }
}

/// The STATUS that a command leads to.
fn status(fault: Fault, disk: &Disk, ram: usize) -> u32 {
    let cylinder_mask = if fault == CylnumOfEightBits { 0xFF } else { 0xFFFF };
    match disk::code(disk) {
        _ if fault == WholeWordIsTheCode && disk.command > 0xFF_FFFF => ILLEGAL,
        RESET => BUSY,
        ACK if fault == AckKeepsTheStatus => disk.status,
        ACK => READY,
        SEEK if disk::cylnum(disk) & cylinder_mask >= disk::cylinders(disk) => 4,
        SEEK => BUSY,
        READ | WRITE => {
            let (there, fits) = (block_on_disk(fault, disk), block_in_ram(fault, disk, ram));
            match (there, fits) {
                (true, true) => BUSY,
                (true, false) => 7,
                (false, false) if fault == Data0IsLookedAtFirst => 7,
                (false, _) => error(fault, disk::code(disk)),
            }
        }
        _ if fault == UnknownCodesAreAcks => READY,
        _ => ILLEGAL,
    }
}

fn command(fault: Fault, machine: &mut Machine, ram: usize, number: usize, value: u32) {
    let delay = machine.printer_delay;
    let pending = machine.disks_pending & !(1 << number);
    let disk = &mut machine.disks[number];
    disk.command = value;
    disk.status = status(fault, disk, ram);
    (disk.ticks_left, disk.words_left) = match disk::moves_words(disk) {
        _ if disk.status != BUSY => (0, 0),
        true if fault == TransferMovesOneWordLess => (0, 1_023),
        true => (0, 1_024),
        false if fault == SeekTakesOneTick => (1, 0),
        false => (delay, 0),
    };
    if disk::code(disk) == SEEK && disk.status == BUSY && fault == SeekMovesAtOnce {
        disk.cylinder = disk::cylnum(disk);
    }
    let ends = ![BUSY, READY].contains(&disk.status);
    let pends = match fault {
        ErrorsDoNotPend => disk.status == ILLEGAL,
        AckPends => ends || disk.status == READY,
        _ => ends,
    };
    machine.disks_pending = match fault {
        CommandKeepsPending => machine.disks_pending,
        CommandClearsAllPending => 0,
        _ => pending,
    } | u32::from(pends) << number;
    set_line(machine);
}

fn set_line(machine: &mut Machine) {
    machine.cause = machine.cause & !LINE | if machine.disks_pending != 0 { LINE } else { 0 };
}

/// A store of a whole word.
pub fn store(fault: Fault, machine: &mut Machine, ram: usize, offset: u32, value: u32) {
    let Some((number, field)) = field(offset) else { return };
    let there = machine.disks_installed >> number & 1 != 0;
    let busy = machine.disks[number].status == BUSY;
    let free = (there || fault == AbsentDisksTakeData0) && !busy;
    match field {
        COMMAND if there && busy && fault == BusyTakesCommand => {
            machine.disks[number].command = value
        }
        COMMAND if there && !busy => command(fault, machine, ram, number, value),
        DATA0 if free || there && fault == BusyTakesData0 => machine.disks[number].data0 = value,
        0 if there && !busy && fault == StatusIsWritten && value & 3 != 3 => {
            machine.disks[number].status = value & 3 | 4
        }
        12 if there && fault == Data1IsWritten => machine.disks[number].data1 ^= 1,
        _ => {}
    }
}

/// What a load finds where only disks answer.
pub fn load(fault: Fault, machine: &Machine, offset: u32) -> Option<u32> {
    let disk = field(offset).map(|(number, field)| (machine.disks[number], field));
    Some(match (offset, disk) {
        (0x28, _) if fault == MapsArePrinters => machine.installed,
        (0x3C, _) if fault == MapsArePrinters => machine.pending,
        (0x28, _) => machine.disks_installed,
        (0x3C, _) => machine.disks_pending,
        (_, Some((disk, 0))) if fault == BusyReadsReady && disk.status == BUSY => READY,
        (_, Some((disk, 0))) => disk.status,
        (_, Some((disk, COMMAND))) if fault == CommandReadsItsCode => disk::code(&disk),
        (_, Some((disk, COMMAND))) => disk.command,
        (_, Some((disk, DATA0))) => disk.data0,
        (_, Some((_, 12))) if fault == Data1ReadsNull => 0,
        (_, Some((disk, 12))) => disk.data1,
        _ => return None,
    })
}
