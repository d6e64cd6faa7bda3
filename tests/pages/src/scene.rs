//! A machine with few frames and few pages, its table, and what its registers
//! hold for the words.

use crate::call::Call;
use crate::dice::Dice;
use crate::lent::empty_index;
use crate::look::{DIRTY, GLOBAL, RAM, VALID};
use crate::words::*;
use reference::layout::RECORD_BYTES;
use reference::{encode, Entry, Machine, Status, IMAGE_BYTES};
use std::ops::RangeInclusive;

const FRAMES: u32 = 3;
const FRAME: u32 = 0x1000;

/// The first are RAM's own, where code goes on with translation off too; user
/// mode may have the others.
const PAGES: [u32; 6] = [RAM, RAM + FRAME, 0x8000_0000, 0x8000_1000, 0xC000_0000, 0xFFFF_F000];

const SPACES: [u32; 2] = [0x040, 0x080];

const USER: u32 = 1 << 1;
const VM: u32 = 1 << 24;
const CU0: u32 = 1 << 28;
const BEV: u32 = 1 << 22;

const SLOTS: [usize; 6] = [0, 1, 2, 3, 17, 512];

fn fill(dice: &mut Dice, ram: &mut [u8]) {
    for (place, four) in ram.chunks_exact_mut(4).enumerate() {
        let word = if place % 1024 == 1023 { last_word(dice) } else { word(dice) };
        four.copy_from_slice(&word.to_le_bytes());
    }
}

/// Mostly valid and dirty, now and then a frame that is not there.
fn low(dice: &mut Dice) -> u32 {
    let frame = if dice.chance(24) { 0x7000_0000 } else { RAM + FRAME * dice.below(FRAMES) };
    let unless = |rare: bool, flag: u32| if rare { 0 } else { flag };
    frame
        | unless(dice.chance(6), VALID)
        | unless(dice.chance(5), DIRTY)
        | unless(!dice.chance(3), GLOBAL)
}

fn status(dice: &mut Dice) -> u32 {
    let translation = if dice.chance(4) { 0 } else { VM };
    let user = if dice.chance(4) { USER } else { 0 };
    let usable = if dice.chance(6) { 0 } else { CU0 };
    let interrupts = if dice.chance(8) { 0x0000_0501 } else { 0 };
    let boot = if dice.chance(6) { BEV } else { 0 };
    translation | user | usable | interrupts | boot | dice.word() & 0x0600_003C
}

fn address(dice: &mut Dice, pages: &[u32]) -> u32 {
    let within = match dice.below(4) {
        0 => 0,
        1 => 0xFF8,
        _ => 4 * dice.below(1024),
    };
    dice.pick(pages) + within
}

fn registers(range: (u32, u32)) -> RangeInclusive<usize> {
    range.0 as usize..=range.1 as usize
}

/// Code often runs from the end of a page into the next.
fn target(dice: &mut Dice, page: u32) -> u32 {
    page + if dice.chance(3) { 0xFF0 + 4 * dice.below(4) } else { 4 * dice.below(1024) }
}

/// The page of the code, and another one, have most of the accesses and entries.
fn fill_registers(dice: &mut Dice, machine: &mut Machine, home: u32) {
    let few = [home, dice.pick(&PAGES)];
    for number in registers(BASES) {
        let pages: &[u32] = if dice.chance(6) { &PAGES } else { &few };
        machine.registers[number] = address(dice, pages);
    }
    for number in registers(HIGHS) {
        let page = if dice.chance(8) { dice.pick(&PAGES) } else { dice.pick(&few) };
        let space = if dice.chance(2) { dice.pick(&SPACES) } else { machine.entry_hi & 0xFC0 };
        machine.registers[number] = page | space;
    }
    for number in registers(ROWS) {
        let page = dice.pick(&few);
        let own = PAGES.iter().position(|it| *it == page).unwrap_or(0) as u32;
        machine.registers[number] = if dice.chance(3) { dice.below(10) } else { own } << 8;
    }
    for number in registers(LOWS) {
        machine.registers[number] = low(dice);
    }
    for number in registers(STATUSES) {
        machine.registers[number] = status(dice);
    }
    for number in registers(TARGETS) {
        let page = dice.pick(&PAGES);
        machine.registers[number] = target(dice, page);
    }
    for number in registers(DATA) {
        machine.registers[number] = word(dice);
    }
}

/// Row n has page n; a few rows more have a page again, in another space.
fn fill_table(dice: &mut Dice, machine: &mut Machine) {
    let space = machine.entry_hi & 0xFC0;
    for (row, page) in PAGES.iter().enumerate() {
        machine.tlb[row] = Entry { high: page | space, low: low(dice) };
    }
    for row in 6..10 {
        let other = SPACES[usize::from(space == SPACES[0])];
        machine.tlb[row] = Entry { high: PAGES[row - 4] | other, low: low(dice) & !GLOBAL };
        if dice.chance(3) {
            machine.tlb[row].high = 0x3000_0000;
        }
    }
    for row in 10..16 {
        machine.tlb[row].high = 0x4000_0000 + FRAME * row as u32;
    }
    for row in 0..6 {
        let alone = (6..10).all(|more| (machine.tlb[more].high ^ PAGES[row]) >> 12 != 0);
        if !alone && dice.chance(2) {
            machine.tlb[row].low &= !GLOBAL;
        }
    }
}

fn machine(dice: &mut Dice) -> Machine {
    let mut machine = Machine::default();
    machine.time_scale = 1;
    machine.printer_delay = 1;
    machine.random = dice.between(1, 15) << 8;
    machine.index = dice.below(6) << 8;
    machine.clock = dice.long();
    machine.timer = if dice.chance(4) { dice.below(60) } else { dice.word() };
    machine.entry_hi = dice.pick(&PAGES) | dice.pick(&SPACES);
    machine.entry_lo = low(dice);
    machine.status = Status(status(dice));
    let user = machine.status.0 & USER != 0;
    let home = match machine.status.0 & VM {
        0 => dice.pick(&PAGES[..2]),
        _ if user => dice.pick(&PAGES[2..]),
        _ => dice.pick(&PAGES),
    };
    fill_registers(dice, &mut machine, home);
    fill_table(dice, &mut machine);
    machine.pc = target(dice, home);
    machine.next_pc = machine.pc.wrapping_add(4);
    // Two bases just ahead of the code, which is then written over.
    let ahead = machine.registers[TARGETS.0 as usize];
    machine.registers[1] = machine.pc.wrapping_add(4 * dice.between(2, 10));
    machine.registers[2] = ahead.wrapping_add(4 * dice.below(6));
    machine
}

fn rom(dice: &mut Dice, vectors: [usize; 2]) -> Vec<u8> {
    let mut rom = vec![0; 0x1A0];
    for vector in vectors {
        for (four, word) in rom[vector..].chunks_exact_mut(4).zip(handler(dice)) {
            four.copy_from_slice(&word.to_le_bytes());
        }
    }
    rom
}

pub fn scene(dice: &mut Dice) -> Call {
    let mut image = vec![0; IMAGE_BYTES];
    encode(&machine(dice), &mut image);
    let mut ram = vec![0; (FRAMES * FRAME) as usize];
    fill(dice, &mut ram);
    let slots = dice.pick(&SLOTS);
    Call {
        image,
        execution: rom(dice, [0, 0x80]),
        bootstrap: rom(dice, [0x100, 0x180]),
        index: empty_index(ram.len()),
        ram,
        paper: Vec::new(),
        journal: vec![0xA5; RECORD_BYTES * slots],
        budget: 0,
        stop: 0,
    }
}
