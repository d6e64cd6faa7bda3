//! A machine a few steps before a fetch, load or store on a page that entries
//! of the table match: never, once, twice or more often.

use crate::asm::TLBP;
use crate::call::Call;
use crate::code::{self, Code};
use crate::dice::Dice;
use crate::lent::empty_index;
use crate::lines;
use crate::look::RAM;
use crate::table::{self, Spot};
use crate::words::{load, no_access, store, BASE, HANDLER, TARGET};
use reference::layout::RECORD_BYTES;
use reference::{encode, Machine, Status, IMAGE_BYTES};

/// Numbers for yes; the low half or the low byte of some is 0.
pub const STOPS: [u64; 7] = [1, 2, 256, 1 << 31, 1 << 32, 1 << 63, u64::MAX];

const USER: u32 = 1 << 1;
const BEV: u32 = 1 << 22;
const VM: u32 = 1 << 24;
const CU0: u32 = 1 << 28;

/// Where the code is; the first is RAM's own, the upper ones are open to user mode.
const CODE: [u32; 5] = [RAM, RAM, 0x8000_0000, 0xC000_1000, 0xFFFF_D000];
/// Where the access goes.
const OPEN: [u32; 3] = [0x8000_2000, 0xD000_0000, 0xFFFF_F000];
const KERNEL_ONLY: [u32; 3] = [0x2000_2000, 0x5000_0000, 0x7FFF_F000];
const UNTRANSLATED: [u32; 3] = [0, 0x1000_0000, 0x1FC0_0000];

#[derive(Clone, Copy, PartialEq, Eq)]
pub enum Aim {
    Fetch,
    Word,
}

fn pages(dice: &mut Dice) -> (bool, u32, u32) {
    let user = dice.chance(3);
    let code = dice.pick(if user { &CODE[2..] } else { &CODE });
    let page = match dice.below(8) {
        0 => dice.pick(&KERNEL_ONLY),
        1 => dice.pick(&UNTRANSLATED),
        2 if !user => dice.pick(&KERNEL_ONLY),
        _ => dice.pick(&OPEN),
    };
    (user, code, page)
}

fn status(dice: &mut Dice, user: bool) -> Status {
    let translation = if dice.chance(24) { 0 } else { VM };
    let user = if user { USER } else { 0 };
    let rest = dice.below(2) * BEV | dice.below(2) * CU0 | dice.word() & 0x0600_0030;
    Status(translation | user | rest | lines::enabled(dice))
}

fn key(dice: &mut Dice) -> (Aim, u32) {
    match dice.below(16) {
        0..=3 => (Aim::Fetch, 0),
        4..=8 => (Aim::Word, load(dice)),
        9..=13 => (Aim::Word, store(dice)),
        14 => (Aim::Word, no_access(dice)),
        _ => (Aim::Word, TLBP),
    }
}

fn machine(dice: &mut Dice, user: bool) -> Machine {
    let mut machine = Machine::default();
    machine.status = status(dice, user);
    for register in &mut machine.registers[1..] {
        *register = dice.word();
    }
    machine.time_scale = 1;
    machine.random = dice.between(1, 15) << 8;
    machine.index = dice.word() & 0x8000_3F00;
    machine.clock = if dice.chance(8) { u64::MAX } else { dice.long() };
    machine
}

/// RAM and ROMs with handlers at the vectors; the rest is the same for all.
fn buffers(dice: &mut Dice, bytes: &[u8], frames: u32) -> Call {
    let mut rom = vec![0; 0x190];
    code::put(&mut rom, 0x80, &HANDLER);
    code::put(&mut rom, 0x180, &HANDLER);
    let paper = dice.pick(&[0, 8, 16, 64]);
    let slots = dice.pick(&[0, 1, 2, 3, 3, 17]);
    Call {
        image: vec![0; IMAGE_BYTES],
        execution: rom.clone(),
        bootstrap: rom,
        ram: bytes[..0x1000 * frames as usize].to_vec(),
        paper: bytes[..paper].to_vec(),
        journal: bytes[..RECORD_BYTES * slots].to_vec(),
        index: empty_index(0x1000 * frames as usize),
        budget: 0,
        stop: if dice.chance(2) { 0 } else { dice.pick(&STOPS) },
    }
}

/// Around the steps that lead to the access: just spent, one more, any.
fn budget(dice: &mut Dice, steps: u32) -> u64 {
    u64::from(match dice.below(16) {
        0 => 0,
        1..=3 => steps,
        4 => steps.saturating_sub(1),
        5..=8 => steps + 1,
        _ => steps + dice.between(2, 9),
    })
}

fn journal_place(dice: &mut Dice, machine: &mut Machine, slots: u32) {
    if slots > 0 {
        machine.on_hand = dice.between(0, slots);
        machine.next_slot = dice.below(slots);
    }
}

/// `bytes` fill the buffers; there are enough for the longest.
pub fn scene(dice: &mut Dice, bytes: &[u8]) -> Call {
    let frames = if dice.chance(8) { 2 } else { 1 };
    let mut call = buffers(dice, bytes, frames);
    let (user, home, page) = pages(dice);
    let mut machine = machine(dice, user);
    let space = table::asid(dice);
    machine.entry_hi = page | space;
    let rows = table::shuffled(dice);
    let used = [home, home + 0x1000, page];
    for (number, row) in (0..).zip(rows) {
        machine.tlb[row] = table::elsewhere(dice, number, page, &used);
    }
    let (aim, word) = key(dice);
    let code = Code { home, page, aim, word };
    machine.registers[BASE as usize] = page | dice.below(0xF00) & !63;
    machine.registers[TARGET as usize] = page | dice.below(0xF00) & !3 | odd(dice);
    let (pc, doubled, steps) = code.lay(dice, &mut machine, &mut call);
    table::code(dice, &mut machine, rows[0], Spot { page: home, space });
    table::double(dice, &mut machine, &rows[1..], Spot { page: doubled, space }, frames);
    machine.pc = pc;
    machine.next_pc = pc.wrapping_add(4);
    lines::fill(dice, &mut machine, steps, call.paper.len() as u32 / 8);
    let slots = call.slots() as u32;
    journal_place(dice, &mut machine, slots);
    call.budget = budget(dice, steps);
    encode(&machine, &mut call.image);
    call
}

/// A jump to no multiple of 4, now and then.
fn odd(dice: &mut Dice) -> u32 {
    if dice.chance(8) {
        dice.between(1, 3)
    } else {
        0
    }
}
