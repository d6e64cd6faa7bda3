//! The part of a record that is the disks': the tests' own, with a fault.

use crate::disk::BUSY;
use crate::faults::Fault::{self, *};
use crate::model_tick::Move;
use crate::record::*;
use crate::world::World;
use reference::{Disk, Machine};

const NO_WORD: u32 = 1;
const WROTE: u32 = 3;

/// What a step was, beside the record that a machine without disks makes of it.
pub struct Step<'a> {
    pub before: &'a Machine,
    pub after: &'a Machine,
    pub moves: &'a [Move],
    /// The offset in the device area that it stored to.
    pub stored: Option<u32>,
}

impl Step<'_> {
    fn moved(&self, number: usize) -> Option<&Move> {
        self.moves.iter().find(|it| it.number == number)
    }

    /// What is saved of the word that a disk overwrote.
    fn bytes(&self, fault: Fault, it: &Move, world: &World) -> u32 {
        let lower = self
            .moves
            .iter()
            .rev()
            .find(|other| other.reads && other.number < it.number && other.in_ram == it.in_ram);
        match (fault, it.reads) {
            (RecordOfTheWordBehind, true) => world.ram_word(it.in_ram),
            (RecordOfTheWordBetween, true) => lower.map_or(it.ram_before, |it| it.disk_before),
            (_, true) => it.ram_before,
            (_, false) => it.disk_before,
        }
    }
}

/// All of it but the distances.
pub fn write(fault: Fault, step: &Step, world: &World, record: &mut [u8]) {
    let Step { before, after, .. } = step;
    set(record, CAUSE, before.cause);
    let pending = if fault == RecordOfPendingBehind { after } else { before };
    set(record, DISKS_PENDING, pending.disks_pending);
    record[4 * disk(0, 0)..].fill(0);
    for number in 0..8 {
        let (old, new) = (&before.disks[number], &after.disks[number]);
        if old.status == BUSY && fault != RecordWithoutDisks {
            at_work(fault, step, world, number, record);
        } else if new.status == BUSY && fault == RecordOfWhatStarts {
            set(record, disk(number, HOW), NO_WORD);
        } else if old.cylinder != 0 && fault == RecordOfIdleCylinders {
            set(record, disk(number, HOW), old.cylinder << 16);
        }
    }
    if fault == RecordEndsNotInNulls && before.disks_pending != 0 {
        set(record, WORDS - 1, 1);
    }
    kind(fault, step, record);
}

fn at_work(fault: Fault, step: &Step, world: &World, number: usize, record: &mut [u8]) {
    let (old, new) = (&step.before.disks[number], &step.after.disks[number]);
    let moved = step.moved(number);
    let how = match moved {
        Some(it) if it.reads => READ,
        Some(_) => WROTE,
        None => NO_WORD,
    };
    let cylinder = if fault == RecordOfTheCylinderBehind { new.cylinder } else { old.cylinder };
    let left: &Disk = if fault == RecordOfWhatIsLeftBehind { new } else { old };
    set(record, disk(number, HOW), how | cylinder << 16);
    set(record, disk(number, LEFT), left.ticks_left | left.words_left << 16);
    if let Some(it) = moved {
        let place = match fault {
            RecordOfTheBlocksPlace => old.data0.wrapping_sub(crate::look::RAM) as usize,
            _ => it.in_ram,
        };
        if it.reads || fault == RecordOfPlacesOfWrites {
            set(record, disk(number, PLACE), place as u32);
        }
        let turned = fault == RecordOfTurnedBytes;
        let bytes = step.bytes(fault, it, world);
        set(record, disk(number, BYTES), if turned { bytes.swap_bytes() } else { bytes });
    }
}

/// A store saves what was there before the step.
fn kind(fault: Fault, step: &Step, record: &mut [u8]) {
    if word(record, KIND) == RAM_WORD {
        let place = word(record, WHICH) as usize;
        let read = step.moves.iter().rev().find(|it| it.reads && it.in_ram == place);
        match read {
            Some(it) if fault == StoresRecordIsOfTheWordBetween => set(record, OLD, it.disk_before),
            Some(it) => set(record, OLD, it.ram_before),
            None => {}
        }
        return;
    }
    let Some(offset) = step.stored else { return };
    let Some((number, field)) = crate::model_command::field(offset) else { return };
    let (old, new) = (&step.before.disks[number], &step.after.disks[number]);
    let value = if field == 4 { old.command } else { old.data0 };
    let taken = (new.command, new.data0, new.status) != (old.command, old.data0, old.status);
    let kept = match fault {
        NoKindOfRegisters => false,
        NoKindOfRegistersNotTaken => taken,
        NoKindOfData0 => field == 4,
        _ => true,
    };
    let status = if fault == StatusBehindInTheRecord { new.status } else { old.status };
    let offset = if fault == OffsetWithinTheLine { offset - 0x50 } else { offset };
    let there = step.before.disks_installed >> number & 1 != 0;
    let words = if [4, 8].contains(&field) && kept && there {
        [DISK_WORD, offset, value, status]
    } else {
        [NOTHING, 0, 0, 0]
    };
    for (place, value) in [KIND, WHICH, OLD, OLD_STATUS].into_iter().zip(words) {
        set(record, place, value);
    }
}

/// Whether a disk was at work by its record.
pub fn how(record: &[u8], number: usize) -> u32 {
    word(record, disk(number, HOW)) & 0xFFFF
}

pub fn distance_of(record: &[u8], number: usize) -> u32 {
    let at = disk_distance(number);
    u32::from(record[at]) | u32::from(record[at + 1]) << 8
}

pub fn set_distance(record: &mut [u8], number: usize, value: u32) {
    let at = disk_distance(number);
    record[at..at + 2].copy_from_slice(&(value as u16).to_le_bytes());
}
