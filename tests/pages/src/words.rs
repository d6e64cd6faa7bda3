//! The words that all frames are full of. Each does something wherever it stands,
//! so that code goes on after its page was mapped elsewhere or written over.

use crate::asm::*;
use crate::dice::Dice;

/// Addresses of data.
pub const BASES: (u32, u32) = (1, 6);
/// Values for EntryHi, EntryLo, Index and Status.
pub const HIGHS: (u32, u32) = (7, 10);
pub const LOWS: (u32, u32) = (11, 13);
pub const ROWS: (u32, u32) = (14, 15);
pub const STATUSES: (u32, u32) = (16, 18);
/// Where jumps lead.
pub const TARGETS: (u32, u32) = (19, 21);
/// What is stored and loaded: words of this kind too.
pub const DATA: (u32, u32) = (22, 25);

const LOADS: [u32; 7] = [0x20, 0x21, 0x22, 0x23, 0x24, 0x25, 0x26];
const STORES: [u32; 5] = [0x28, 0x29, 0x2A, 0x2B, 0x2E];
const ODD: [u32; 7] = [SYSCALL, BREAK, 0xFC00_0000, 0x4400_0000, 0x4200_003F, TLBP, 0x0000_0018];

fn one_of(dice: &mut Dice, (first, last): (u32, u32)) -> u32 {
    dice.between(first, last)
}

/// Mostly aligned; a few bytes beside the base, sometimes over the page's end.
fn access(dice: &mut Dice, opcodes: &[u32]) -> u32 {
    let opcode = dice.pick(opcodes);
    let offset = dice.below(24).wrapping_sub(8);
    let offset = if dice.chance(16) { offset } else { offset & !3 };
    immediate(opcode, one_of(dice, BASES), one_of(dice, DATA), offset)
}

fn change(dice: &mut Dice) -> u32 {
    match dice.below(16) {
        0..=3 => mtc0(one_of(dice, HIGHS), ENTRY_HI),
        4..=5 => mtc0(one_of(dice, LOWS), ENTRY_LO),
        6..=7 => mtc0(one_of(dice, ROWS), INDEX),
        8..=9 => TLBWI,
        10 => TLBWR,
        11..=12 => TLBR,
        13 => RFE,
        _ => mtc0(one_of(dice, STATUSES), STATUS),
    }
}

/// To nearby words, taken or not; or to one of the targets.
fn branch(dice: &mut Dice) -> u32 {
    let near = dice.below(12).wrapping_sub(4);
    let (one, other) = (one_of(dice, DATA), one_of(dice, DATA));
    match dice.below(6) {
        0 => beq(0, 0, near),
        1 => beq(one, other, near),
        2 => bne(one, other, near),
        3 => bcond(dice.pick(&[0, 1, 16, 17]), one, near),
        4 => jalr(one, one_of(dice, TARGETS)),
        _ => jr(one_of(dice, TARGETS)),
    }
}

pub fn word(dice: &mut Dice) -> u32 {
    match dice.below(32) {
        0..=7 => access(dice, &LOADS),
        8..=13 => access(dice, &STORES),
        14..=22 => change(dice),
        23..=26 => branch(dice),
        27 => addiu(one_of(dice, BASES), one_of(dice, BASES), dice.pick(&[0, 4, 8, 0xFFFC])),
        28 => special(32, one_of(dice, DATA), one_of(dice, DATA), one_of(dice, DATA)),
        29 => dice.pick(&ODD),
        _ => special(33, one_of(dice, DATA), one_of(dice, DATA), one_of(dice, DATA)),
    }
}

/// For the last word of a page: often a branch, whose slot is on the next one.
pub fn last_word(dice: &mut Dice) -> u32 {
    if dice.chance(2) {
        branch(dice)
    } else {
        word(dice)
    }
}

const ON: u32 = 26;

/// What stands at a vector: skip the word, come back to it with one entry more,
/// or go elsewhere.
pub fn handler(dice: &mut Dice) -> Vec<u32> {
    match dice.below(5) {
        0 | 1 => vec![mfc0(ON, EPC), addiu(ON, ON, 4), jr(ON), RFE],
        2 => vec![mtc0(one_of(dice, LOWS), ENTRY_LO), TLBWR, mfc0(ON, EPC), jr(ON), RFE],
        3 => vec![jr(one_of(dice, TARGETS)), RFE],
        _ => vec![jr(one_of(dice, TARGETS)), mtc0(one_of(dice, STATUSES), STATUS)],
    }
}
