//! Run with records: each step fills its slot of the journal.

use crate::answer::Answer;
use crate::calls::{move_on, run_steps};
use crate::exception::Exception;
use crate::index::{drop_oldest, note_places, note_step};
use crate::layout::*;
use crate::look::Instruction;
use crate::machine::Machine;
use crate::memory::Memory;
use crate::record::NoRecord;
use crate::record_disks::DiskRecordWriter;
use crate::sizes::record_slots;
use crate::step::take;
use crate::writer::RecordWriter;

#[inline]
fn slot(journal: &mut [u8], number: u32) -> &mut Record {
    let start = number as usize * RECORD_BYTES;
    let bytes = &mut journal[start..start + RECORD_BYTES];
    bytes.try_into().expect("a slot is 512 bytes")
}

/// `run`, and each step writes its record at next slot and moves the index on.
/// With no slots neither is touched.
#[allow(clippy::too_many_arguments)]
pub fn run_with_records(
    image: &mut [u8],
    execution_rom: &[u8],
    bootstrap_rom: &[u8],
    ram: &mut [u8],
    paper: &mut [u8],
    journal: &mut [u8],
    index: &mut [u8],
    disks: [&mut [u8]; 8],
    budget: u64,
    stop_at_exceptions: u64,
) -> Answer {
    let slots = record_slots(journal.len()) as u32;
    let memory = Memory { execution_rom, bootstrap_rom, ram, paper, disks };
    run_steps(
        image,
        memory,
        journal.len(),
        Some(index.len()),
        budget,
        stop_at_exceptions,
        |machine, memory, coming| {
            if slots == 0 {
                return take(machine, memory, &mut NoRecord, *coming);
            }
            let record = slot(journal, machine.next_slot);
            let entered = take_recorded(machine, memory, coming, record, index, slots);
            move_on(machine, slots);
            entered
        },
    )
}

/// One step with its record, which may stand over the oldest one on hand.
#[inline(always)]
fn take_recorded(
    machine: &mut Machine,
    memory: &mut Memory,
    coming: &Result<Instruction, Exception>,
    record: &mut Record,
    index: &mut [u8],
    slots: u32,
) -> bool {
    let most_below = slots - 1;
    if machine.on_hand == slots {
        drop_oldest(index, record, machine.clock.wrapping_sub(most_below.into()));
    }
    let below = machine.on_hand.min(most_below);
    if machine.disks_busy != 0 {
        return take_beside_disks(machine, memory.lent_on(), *coming, record, index, below);
    }
    let entered = take(machine, memory, &mut RecordWriter::start(record, machine), *coming);
    note_step(index, record, memory.ram, machine.clock, below);
    entered
}

/// The same with disks at work.
#[cold]
fn take_beside_disks(
    machine: &mut Machine,
    mut memory: Memory,
    coming: Result<Instruction, Exception>,
    record: &mut Record,
    index: &mut [u8],
    below: u32,
) -> bool {
    let mut writer = DiskRecordWriter::start(record, machine, &memory);
    let entered = take(machine, &mut memory, &mut writer, coming);
    note_places(index, record, memory.ram, machine.clock, below);
    entered
}
