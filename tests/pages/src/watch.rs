//! Each step of a run, and the step that it stopped before, looked at. The steps
//! are taken one by one, and nothing is remembered from one to the next: the run
//! of the reference, which remembers pages, has to come to the same.

use crate::asm::{RFE, TLBR, TLBWI, TLBWR};
use crate::call::Call;
use crate::changes::{self as change, Changes};
use crate::fields::same_but_journal_place;
use crate::look::{look, Access, Kind, Look, ASID, PAGE, RAM};
use crate::met::Met;
use crate::sides::Buffers;
use reference::{decode, encode, step, Answer, Machine, Memory, NoRecord, TWO_MATCHES};
use std::collections::HashSet;

const OPERATION: u32 = 0xFE00_003F;
const MOVE: u32 = 0xFFE0_F800;
const TO_STATUS: u32 = 0x4080_6000;

/// An error where the run's end is not what its steps lead to.
pub fn watch(
    call: &Call,
    answer: Answer,
    after: &Buffers,
    changes: &mut Changes,
    met: &mut Met,
) -> Result<(), Vec<String>> {
    let mut machine = decode(&call.image);
    let (mut ram, mut paper) = (call.ram.clone(), call.paper.clone());
    let mut memory = call.memory(&mut ram, &mut paper);
    let mut stored = HashSet::new();
    let mut as_the_look_says = true;
    for _ in 0..answer.steps {
        let look = look(&machine, &memory);
        as_the_look_says &= look.halt().is_none();
        taken(&mut machine, &mut memory, &look, &mut stored, changes, met);
    }
    let look = look(&machine, &memory);
    if answer.reason == TWO_MATCHES {
        as_the_look_says &= look.halt().is_some();
        accesses(&machine, &look, changes, met);
    }
    let mut image = after.image.clone();
    encode(&machine, &mut image);
    if as_the_look_says && ram == after.ram && same_but_journal_place(&image, &after.image) {
        Ok(())
    } else {
        Err(vec![format!("the reference's run and its steps differ: {answer:?}")])
    }
}

/// Takes a step. `stored` are the places that the run has stored to.
fn taken(
    machine: &mut Machine,
    memory: &mut Memory,
    look: &Look,
    stored: &mut HashSet<u32>,
    changes: &mut Changes,
    met: &mut Met,
) {
    let before = machine.clone();
    accesses(&before, look, changes, met);
    let entered = step(machine, memory, &mut NoRecord);
    happened(&before, machine, look, entered, changes);
    if entered {
        met.entered[(machine.cause >> 2 & 31) as usize] += 1;
        return;
    }
    met.modified_code += u64::from(stored.contains(&(physical(&before, &look.fetch) & !3)));
    flows(&before, machine, met);
    if let Some(store) = look.data.filter(|data| data.kind == Kind::Store) {
        stored.insert(physical(&before, &store) & !3);
    }
}

fn physical(machine: &Machine, access: &Access) -> u32 {
    match machine.tlb.get(access.lowest()) {
        Some(entry) if access.translated => entry.low & PAGE | access.address & !PAGE,
        _ => access.address,
    }
}

fn accesses(machine: &Machine, look: &Look, changes: &mut Changes, met: &mut Met) {
    if look.interrupt {
        return;
    }
    changes.access(machine, &look.fetch, met);
    if look.fetch.meets_two() {
        return;
    }
    if let (Some(data), Some(word)) = (look.data, look.word) {
        met.by_opcode[(word >> 26) as usize] += 1;
        changes.access(machine, &data, met);
    }
}

fn happened(before: &Machine, after: &Machine, look: &Look, entered: bool, changes: &mut Changes) {
    let word = look.word.filter(|_| !entered).unwrap_or(0);
    let space = (before.entry_hi ^ after.entry_hi) & ASID != 0;
    let status = before.status.0 ^ after.status.0;
    let operation = |wanted: u32| word & OPERATION == wanted;
    let all = [
        (change::TLBWI, operation(TLBWI)),
        (change::TLBWR, operation(TLBWR)),
        (change::MOVED_SPACE, space && !operation(TLBR)),
        (change::READ_SPACE, space && operation(TLBR)),
        (change::TRANSLATION, status & 1 << 24 != 0),
        (change::MODE, status & 1 << 1 != 0),
        (change::ENTRY, entered),
        (change::RETURN, operation(RFE)),
        (change::STATUS, word & MOVE == TO_STATUS),
        (change::STORE, !entered && look.data.map_or(false, |data| data.kind == Kind::Store)),
    ];
    for (change, _) in all.iter().filter(|(_, happened)| *happened) {
        changes.happened(*change);
    }
}

/// Where the code goes from one page to another.
fn flows(before: &Machine, after: &Machine, met: &mut Met) {
    let other_page = (before.pc ^ after.pc) & PAGE != 0;
    if !other_page || before.pc < RAM {
        return;
    }
    if after.slot_flag != 0 && before.slot_flag == 0 {
        met.slot_on_next_page += 1;
    } else if before.slot_flag != 0 {
        met.branched_to_a_page += 1;
    } else {
        met.straight_to_a_page += 1;
    }
}
