//! Random instruction words: all of the book, steered by what the registers
//! hold at the start of a run, and some that are in no book.

use crate::accesses::{devices, load, store};
use crate::book::*;
use crate::dice::Dice;
use crate::plan::*;

/// Fields that the instruction does not use stay random: they are ignored.
pub fn bare(dice: &mut Dice, from: &[Instruction]) -> u32 {
    let which = &from[dice.below(from.len() as u32) as usize];
    dice.word() & !which.mask | which.fixed
}

pub fn with(word: u32, lowest_bit: u32, bits: u32, value: u32) -> u32 {
    let field = ((1 << bits) - 1) << lowest_bit;
    word & !field | value << lowest_bit & field
}

pub fn with_rs(word: u32, number: u32) -> u32 {
    with(word, 21, 5, number)
}

pub fn with_rt(word: u32, number: u32) -> u32 {
    with(word, 16, 5, number)
}

fn with_rd(word: u32, number: u32) -> u32 {
    with(word, 11, 5, number)
}

/// Seldom one of those that hold addresses, so that they last for a while.
pub fn target(dice: &mut Dice) -> u32 {
    match dice.below(16) {
        0 => 0,
        1 => dice.below(32),
        _ => dice.between(LAST_EXTREME + 1, 31),
    }
}

pub fn instruction(dice: &mut Dice) -> u32 {
    match dice.below(100) {
        0..=1 => dice.word(),
        2..=3 => undefined(dice),
        4 => coprocessor(dice),
        5 => bare(dice, &TRAP),
        6..=18 => control(dice),
        19..=27 => branch(dice),
        28..=31 => jump(dice),
        32..=49 => load(dice),
        50..=66 => store(dice),
        67..=78 => immediate(dice),
        _ => compute(dice),
    }
}

/// Numbers that mean something to arithmetic, rather than addresses.
fn number(dice: &mut Dice) -> u32 {
    dice.between(FIRST_NUMBER, LAST_EXTREME)
}

/// Code for the start of a run: mostly of all kinds, sometimes of one kind, so
/// that much of it is met before something ends it.
pub fn code(dice: &mut Dice, count: usize) -> Vec<u32> {
    let one: fn(&mut Dice) -> u32 = match dice.below(10) {
        0 => devices,
        1 => compute,
        2 => |dice| if dice.chance(2) { control(dice) } else { instruction(dice) },
        3 => |dice| if dice.chance(2) { load(dice) } else { store(dice) },
        _ => instruction,
    };
    (0..count).map(|_| one(dice)).collect()
}

fn compute(dice: &mut Dice) -> u32 {
    let mut word = bare(dice, &COMPUTE);
    if dice.chance(2) {
        word = with_rt(with_rs(word, number(dice)), number(dice));
    }
    with_rd(word, target(dice))
}

fn immediate(dice: &mut Dice) -> u32 {
    let word = bare(dice, &IMMEDIATE);
    with_rt(word, target(dice))
}

/// Mostly near, so that the run stays where code is.
fn branch(dice: &mut Dice) -> u32 {
    let mut word = bare(dice, &BRANCH);
    if !dice.chance(12) {
        let back_or_on = dice.between(0, 24).wrapping_sub(8);
        word = with(word, 0, 16, back_or_on);
    }
    if opcode(word) == 1 && dice.chance(6) {
        word = with_rs(word, 31);
    }
    word
}

fn jump(dice: &mut Dice) -> u32 {
    let mut word = bare(dice, &JUMP);
    if opcode(word) != 0 {
        return if dice.chance(8) { word } else { with(word, 0, 26, dice.below(0x200)) };
    }
    if !dice.chance(12) {
        word = with_rs(word, dice.pick(&[FIRST_CODE, FIRST_CODE, FIRST_CODE, LAST_CODE, 31]));
    }
    let same = rs(word) as u32;
    if dice.chance(6) {
        with_rd(word, same)
    } else {
        with_rd(word, target(dice))
    }
}

fn control(dice: &mut Dice) -> u32 {
    let word = bare(dice, &CONTROL);
    if word >> 25 & 1 != 0 {
        return word;
    }
    // 15 is no register here.
    let number = dice.pick(&[0, 0, 1, 2, 2, 8, 10, 10, 12, 13, 13, 14, 15]);
    let word = if dice.chance(16) { word } else { with_rd(word, number) };
    let reads = word >> 23 & 1 == 0;
    with_rt(word, if reads { target(dice) } else { dice.between(FIRST_NUMBER, 31) })
}

/// COP1 to 3, and the loads and stores of all four coprocessors.
fn coprocessor(dice: &mut Dice) -> u32 {
    let opcodes = [0x11, 0x12, 0x13, 0x30, 0x31, 0x32, 0x33, 0x38, 0x39, 0x3A, 0x3B];
    with(dice.word(), 26, 6, dice.pick(&opcodes))
}

/// Undefined under every opcode that has undefined codes, and undefined opcodes.
fn undefined(dice: &mut Dice) -> u32 {
    let word = dice.word();
    match dice.below(5) {
        0 => with(word, 26, 6, dice.pick(&[0x14, 0x17, 0x18, 0x1F, 0x27, 0x2C, 0x2D, 0x2F, 0x3F])),
        1 => {
            with(with(word, 26, 6, 0), 0, 6, dice.pick(&[1, 5, 10, 11, 14, 15, 20, 28, 40, 44, 63]))
        }
        2 => with_rt(with(word, 26, 6, 1), dice.pick(&[2, 3, 8, 15, 18, 31])),
        3 => with(word, 24, 8, 0x42),
        _ => with_rs(with(word, 26, 6, 0x10), dice.pick(&[1, 2, 3, 5, 6, 7, 8, 9, 15])),
    }
}
