//! The words of a scene: branches and jumps of every kind, words that raise
//! each exception, and others.

use crate::asm::*;
use crate::dice::Dice;

/// Data in RAM.
pub const GOOD: u32 = 1;
/// Pages that may not be stored to, are not valid, and are not in the table.
pub const READ_ONLY: u32 = 2;
pub const NOT_VALID: u32 = 3;
pub const MISSING: u32 = 4;
/// Where nothing is installed.
pub const NOWHERE: u32 = 5;
/// A page with two entries.
pub const DOUBLED: u32 = 6;
pub const DEVICES: u32 = 7;
/// Places in the code; the last is no multiple of 4.
pub const CODE: [u32; 3] = [8, 9, 10];
/// Where a fetch raises, or meets two entries.
pub const BAD_CODE: [u32; 2] = [11, 12];
pub const MOST_POSITIVE: u32 = 13;
pub const NEGATIVE: u32 = 14;
/// For Cause and Status.
pub const LINES: u32 = 15;
pub const STATUS_VALUE: u32 = 16;

const FREE: [u32; 6] = [17, 18, 19, 20, 21, 22];

pub const JUMPS: [&str; 4] = ["J", "JAL", "JR", "JALR"];
pub const BRANCHES: [&str; 8] = ["BEQ", "BNE", "BLEZ", "BGTZ", "BLTZ", "BGEZ", "BLTZAL", "BGEZAL"];

/// The number of a branch or jump, the jumps first; by the published tables.
pub fn branch_kind(word: u32) -> Option<usize> {
    match (word >> 26, word & 63, word >> 16 & 31) {
        (0, 8, _) => Some(2),
        (0, 9, _) => Some(3),
        (1, _, 0) => Some(8),
        (1, _, 1) => Some(9),
        (1, _, 16) => Some(10),
        (1, _, 17) => Some(11),
        (opcode @ 2..=3, _, _) => Some(opcode as usize - 2),
        (opcode @ 4..=7, _, _) => Some(opcode as usize),
        _ => None,
    }
}

fn free(dice: &mut Dice) -> u32 {
    dice.pick(&FREE)
}

fn operand(dice: &mut Dice) -> u32 {
    let any = free(dice);
    dice.pick(&[0, GOOD, MOST_POSITIVE, NEGATIVE, any])
}

/// Mostly a few words on, now and then back.
fn distance(dice: &mut Dice) -> u32 {
    match dice.below(8) {
        0 => 0u32.wrapping_sub(dice.between(1, 4)),
        1 => 0,
        _ => dice.between(1, 6),
    }
}

fn jump_register(dice: &mut Dice) -> u32 {
    match dice.below(8) {
        0 => dice.pick(&BAD_CODE),
        1 => CODE[2],
        _ => dice.pick(&CODE[..2]),
    }
}

/// The pages of code lie at the start of a region, so that J finds them.
pub fn branch(dice: &mut Dice) -> u32 {
    let (rs, rt) = (operand(dice), operand(dice));
    match dice.below(12) {
        0 => j(4 * dice.below(0x400)),
        1 => jal(4 * dice.below(0x400)),
        2 => jr(jump_register(dice)),
        3 => jalr(dice.pick(&[0, 31, FREE[0]]), jump_register(dice)),
        kind @ 4..=7 => immediate(kind, rs, rt, distance(dice)),
        kind => bcond([0, 1, 16, 17][kind as usize - 8], rs, distance(dice)),
    }
}

fn load(dice: &mut Dice, base: u32) -> u32 {
    lw(free(dice), 4 * dice.below(8), base)
}

fn store(dice: &mut Dice, base: u32) -> u32 {
    sw(free(dice), 4 * dice.below(8), base)
}

/// With these registers each of them raises, or nearly all do.
fn raising(dice: &mut Dice) -> u32 {
    let to = free(dice);
    match dice.below(20) {
        0 => SYSCALL | dice.below(1 << 20) << 6,
        1 => BREAK | dice.below(1 << 20) << 6,
        2 => dice.pick(&[0xFC00_0000, 0x0000_003F, 0x0405_0000, 0x4300_0000, 0xC000_0000]),
        3 => dice.pick(&[0x4400_0000, 0x4800_0000, 0x4C00_0000, 0xC400_0000, 0xE800_0000]),
        4 => special(32, MOST_POSITIVE, MOST_POSITIVE, to),
        5 => addi(to, MOST_POSITIVE, dice.between(1, 0x7FFF)),
        6 => special(34, NEGATIVE, MOST_POSITIVE, to),
        7 => lw(to, dice.between(1, 3), GOOD),
        8 => immediate(dice.pick(&[0x21, 0x25]), GOOD, to, 1),
        9 => sw(to, dice.between(1, 3), GOOD),
        10 => immediate(0x29, GOOD, to, 3),
        11 => store(dice, READ_ONLY),
        12 => load(dice, NOT_VALID),
        13 => store(dice, NOT_VALID),
        14 => load(dice, MISSING),
        15 => store(dice, MISSING),
        16 => load(dice, NOWHERE),
        17 => store(dice, NOWHERE),
        18 => lw(to, 0, 0),
        _ => sw(to, 0, 0),
    }
}

fn control(dice: &mut Dice) -> u32 {
    let to = free(dice);
    match dice.below(8) {
        0 | 1 => RFE,
        2 => mtc0(LINES, CAUSE),
        3 => mtc0(STATUS_VALUE, STATUS),
        4 => mfc0(to, dice.pick(&[CAUSE, EPC])),
        5 => dice.pick(&[TLBP, TLBR]),
        6 => mfc0(to, dice.pick(&[BAD_VADDR, ENTRY_HI, STATUS])),
        _ => mtc0(0, CAUSE),
    }
}

fn harmless(dice: &mut Dice) -> u32 {
    let (to, from) = (free(dice), free(dice));
    match dice.below(8) {
        0 | 1 => NOP,
        2 => addiu(to, from, dice.below(0x1_0000)),
        3 => special(33, from, to, free(dice)),
        4 => load(dice, GOOD),
        5 => store(dice, GOOD),
        6 if dice.chance(2) => store(dice, DOUBLED),
        6 => load(dice, DOUBLED),
        _ => sw(from, dice.pick(&[0x20, 0x1D4, 0x1D8, 0x1E4]), DEVICES),
    }
}

pub fn any(dice: &mut Dice) -> u32 {
    match dice.below(16) {
        0..=6 => branch(dice),
        7..=10 => raising(dice),
        11 => control(dice),
        _ => harmless(dice),
    }
}
