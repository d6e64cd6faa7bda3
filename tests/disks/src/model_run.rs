//! A run: the disks' part is the tests' own, with a fault; the rest of each step is
//! the reference's, on a machine whose disks all rest.

use crate::disk::{BUSY, LINE, READY};
use crate::faults::Fault::{self, *};
use crate::look::{look, Kind, Look, PAGE};
use crate::model_command as command;
use crate::model_index as index;
use crate::model_record::{self, Step};
use crate::model_rows::{refusal, Asked};
use crate::model_tick::{move_words, moves, tick, Move};
use crate::record::{set, word, KIND, RAM_WORD, RECORD_BYTES, WHICH};
use crate::world::{set_word, World};
use reference::{
    no_disks, Answer, Machine, Memory, BUDGET_SPENT, EXCEPTION, IMAGE_BYTES, TWO_MATCHES,
};
use std::mem::take;

pub fn run(fault: Fault, world: &mut World, budget: u64, stop: u64) -> Answer {
    let others = |_: &Machine| vec![(6, budget <= 1_000_000)];
    if let Err(number) = refusal(fault, world, &Asked { roms: true, index: true, others: &others })
    {
        return Answer::refused(number);
    }
    for steps in 0..budget {
        match step(fault, world) {
            None => return Answer::done(TWO_MATCHES, steps as u32),
            Some(true) if stop != 0 => return Answer::done(EXCEPTION, steps as u32 + 1),
            Some(_) => {}
        }
    }
    Answer::done(BUDGET_SPENT, budget as u32)
}

/// The machine with no disk at work.
fn at_rest(machine: &Machine) -> Machine {
    let mut rest = machine.clone();
    for disk in rest.disks.iter_mut().filter(|disk| disk.status == BUSY) {
        (disk.status, disk.ticks_left, disk.words_left) = (READY, 0, 0);
    }
    (rest.on_hand, rest.next_slot) = (0, 0);
    rest
}

/// One step of a machine at rest, with its record.
fn one_step(world: &mut World, rest: &Machine) -> (Answer, Machine, Vec<u8>) {
    let mut part = World {
        image: vec![0; IMAGE_BYTES],
        execution: take(&mut world.execution),
        bootstrap: take(&mut world.bootstrap),
        ram: take(&mut world.ram),
        paper: take(&mut world.paper),
        journal: vec![0; RECORD_BYTES],
        index: vec![0; world.index.len()],
        disks: take(&mut world.disks),
    };
    part.set_machine(rest);
    let answer = part.run(1, 1);
    (world.execution, world.bootstrap) = (take(&mut part.execution), take(&mut part.bootstrap));
    (world.ram, world.paper) = (take(&mut part.ram), take(&mut part.paper));
    world.disks = take(&mut part.disks);
    (answer, part.machine(), part.journal)
}

fn looked_at(world: &mut World, machine: &Machine) -> Look {
    let memory = Memory {
        execution_rom: &world.execution,
        bootstrap_rom: &world.bootstrap,
        ram: &mut world.ram,
        paper: &mut world.paper,
        disks: no_disks(),
    };
    look(machine, &memory)
}

/// The whole word that a step loads or stores in the device area: which register
/// and where.
fn device(machine: &Machine, look: &Look) -> Option<(Kind, usize, u32)> {
    let (word, access) = (look.word?, look.data?);
    let whole = matches!(word >> 26, 0x23 | 0x2B);
    let low = machine.tlb.get(access.lowest()).map_or(0, |entry| entry.low);
    let page = if access.translated { low } else { access.address };
    let offset = (page & PAGE | access.address & !PAGE).checked_sub(0x1000_0000)?;
    (whole && offset < 0x2D0).then_some((access.kind, (word >> 16 & 31) as usize, offset))
}

/// Whether the step entered an exception; None where the run stops before it.
fn step(fault: Fault, world: &mut World) -> Option<bool> {
    let before = world.machine();
    let moves = moves(fault, &before, world);
    let mut ticked = before.clone();
    if fault == TwoMatchesOnTheOldWord && looked_at(world, &at_rest(&ticked)).halt().is_some() {
        return None;
    }
    tick(fault, &mut ticked);
    if fault != TransfersComeLast {
        move_words(fault, &moves, world);
    }
    let rest = at_rest(&ticked);
    let look = looked_at(world, &rest);
    let (answer, after, mut record) = one_step(world, &rest);
    if answer.reason == TWO_MATCHES || answer.number != 0 {
        if fault != HaltsMoveWords {
            moves.iter().rev().for_each(|it| it.undo(world));
        }
        return None;
    }
    let entered = answer.reason == EXCEPTION;
    if fault == TransfersComeLast {
        move_words(fault, &moves, world);
    }
    if entered && fault == NothingMovesAtExceptions {
        moves.iter().rev().for_each(|it| it.undo(world));
    }
    let accessed = if entered { None } else { device(&rest, &look) };
    let after = joined(fault, after, &ticked, accessed, world.ram.len());
    meetings(fault, &moves, &record, world);
    let stored = accessed.filter(|(kind, _, _)| *kind == Kind::Store).map(|(_, _, at)| at);
    let told = Step { before: &before, after: &after, moves: &moves, stored };
    model_record::write(fault, &told, world, &mut record);
    keep(fault, world, record, before, after);
    Some(entered)
}

/// The rest's machine with the disks of this model.
fn joined(
    fault: Fault,
    mut after: Machine,
    ticked: &Machine,
    accessed: Option<(Kind, usize, u32)>,
    ram: usize,
) -> Machine {
    after.disks = ticked.disks;
    after.disks_pending = ticked.disks_pending;
    after.cause = after.cause & !LINE | ticked.cause & LINE;
    match accessed {
        Some((Kind::Store, register, offset)) => {
            let value = ticked.registers[register];
            command::store(fault, &mut after, ram, offset, value);
        }
        Some((Kind::Load, register, offset)) if register != 0 => {
            if let Some(value) = command::load(fault, ticked, offset) {
                after.registers[register] = value;
            }
        }
        _ => {}
    }
    after
}

/// Where a transfer and a store of the same step meet on one word.
fn meetings(fault: Fault, moves: &[Move], record: &[u8], world: &mut World) {
    if word(record, KIND) != RAM_WORD {
        return;
    }
    let place = word(record, WHICH) as usize;
    for it in moves.iter().filter(|it| it.in_ram == place) {
        match (fault, it.reads) {
            (StoresLoseAgainstReads, true) => set_word(&mut world.ram, place, it.disk_before),
            (WritesTakeTheStoredWord, false) => {
                let stored = world.ram_word(place);
                set_word(&mut world.disks[it.number], it.on_disk, stored);
            }
            _ => {}
        }
    }
}

/// Writes the record, moves the index and the place in the journal on.
fn keep(fault: Fault, world: &mut World, mut record: Vec<u8>, before: Machine, mut after: Machine) {
    let slots = world.slots() as u32;
    (after.on_hand, after.next_slot) = (before.on_hand, before.next_slot);
    if slots > 0 {
        let slot = before.next_slot as usize;
        if before.on_hand == slots {
            let gone = before.clock.wrapping_sub(u64::from(slots) - 1);
            let oldest = world.record(slot).to_vec();
            index::drop_oldest(fault, &mut world.index, &oldest, gone);
        }
        let below = before.on_hand.min(slots - 1);
        // The record of a machine at rest has marked nothing.
        if word(&record, KIND) == RAM_WORD {
            set(&mut record, crate::record::DISTANCE, 0);
        }
        index::note(fault, world, &mut record, after.clock, below.into());
        world.journal[RECORD_BYTES * slot..][..RECORD_BYTES].copy_from_slice(&record);
        after.next_slot = (before.next_slot + 1) % slots;
        after.on_hand = (before.on_hand + 1).min(slots);
    }
    world.set_machine(&after);
}
