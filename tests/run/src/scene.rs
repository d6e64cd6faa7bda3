//! A random call of run on a state that keeps the rules.

use crate::call::Call;
use crate::dice::Dice;
use crate::handlers::put_handlers;
use crate::lengths::{lengths, Lengths};
use crate::lent::empty_index;
use crate::pool::Pool;
use crate::{code, control, printers, registers, table, wild};
use reference::layout::RECORD_BYTES;
use reference::{encode, Machine, IMAGE_BYTES};

/// Numbers for yes; the low half or the low byte of some is 0.
pub const STOPS: [u64; 7] = [1, 2, 256, 1 << 31, 1 << 32, 1 << 63, u64::MAX];

pub fn scene(dice: &mut Dice, pool: &Pool) -> Call {
    let lengths = lengths(dice);
    let mut call = buffers(dice, pool, &lengths);
    if dice.chance(16) {
        call.image = wild::image(dice, &lengths);
        put_handlers(dice, &mut call);
        return call;
    }
    let mut machine = Machine::default();
    printers::fill(dice, &mut machine, &lengths);
    control::fill(dice, &mut machine, &lengths);
    table::fill(dice, &mut machine, &lengths);
    code::start(dice, &mut machine, &lengths, &mut call);
    put_handlers(dice, &mut call);
    let pc = machine.pc;
    registers::fill(dice, &mut machine, &lengths, pc);
    machine.hi = dice.word();
    machine.lo = dice.word();
    journal_place(dice, &mut machine, lengths.slots);
    slot(dice, &mut machine);
    encode(&machine, &mut call.image);
    call
}

fn buffers(dice: &mut Dice, pool: &Pool, lengths: &Lengths) -> Call {
    let stop = if dice.chance(2) { 0 } else { dice.pick(&STOPS) };
    Call {
        image: vec![0; IMAGE_BYTES],
        execution: pool.code(dice, lengths.execution as usize),
        bootstrap: pool.code(dice, lengths.bootstrap as usize),
        ram: pool.code(dice, lengths.ram as usize),
        paper: pool.bytes(dice, lengths.paper as usize),
        journal: pool.bytes(dice, lengths.slots as usize * RECORD_BYTES),
        index: empty_index(lengths.ram as usize),
        budget: budget(dice, stop),
        stop,
    }
}

/// A run that does not stop early pays for its whole budget.
fn budget(dice: &mut Dice, stop: u64) -> u64 {
    u64::from(match dice.below(100) {
        0 => 0,
        1..=15 => 1,
        16..=39 => dice.between(2, 8),
        40..=79 => dice.between(9, 64),
        80..=97 => dice.between(65, 250),
        _ if stop != 0 => dice.pick(&[1_000, 999_999, 1_000_000, 1_000_000]),
        _ => dice.between(250, 1_000),
    })
}

fn journal_place(dice: &mut Dice, machine: &mut Machine, slots: u32) {
    if slots == 0 {
        return;
    }
    machine.on_hand = match dice.below(4) {
        0 => slots,
        1 => slots - 1,
        _ => dice.between(0, slots),
    };
    machine.next_slot = if dice.chance(4) { slots - 1 } else { dice.below(slots) };
}

/// Now and then the first step is a slot, mostly of the word before it.
fn slot(dice: &mut Dice, machine: &mut Machine) {
    if dice.chance(8) {
        machine.slot_flag = 1;
        let before = machine.pc.wrapping_sub(4);
        machine.branch_address = if dice.chance(4) { dice.word() } else { before };
    }
}
