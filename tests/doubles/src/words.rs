//! The words of a scene: what leads up to the access, and the access.

use crate::asm::*;
use crate::dice::Dice;

/// The address of the access.
pub const BASE: u32 = 4;
/// What the way to it puts into CP0.
pub const VALUE: u32 = 5;
/// Where a jump leads.
pub const TARGET: u32 = 6;

const LOADS: [u32; 7] = [0x20, 0x21, 0x22, 0x23, 0x24, 0x25, 0x26];
const STORES: [u32; 5] = [0x28, 0x29, 0x2A, 0x2B, 0x2E];
const RESERVED: [u32; 6] = [0x27, 0x2C, 0x2D, 0x2F, 0x30, 0x38];
const UNUSABLE: [u32; 9] = [0x11, 0x12, 0x13, 0x31, 0x32, 0x33, 0x39, 0x3A, 0x3B];

/// Goes on behind the instruction that raised the exception.
pub const HANDLER: [u32; 4] = [mfc0(26, EPC), addiu(26, 26, 4), jr(26), RFE];
pub const STAY: [u32; 2] = [beq(0, 0, 0xFFFF), NOP];

/// Mostly at a multiple of its width.
fn offset(dice: &mut Dice, opcode: u32) -> u32 {
    let any = dice.below(64);
    match opcode {
        _ if dice.chance(8) => any,
        0x23 | 0x2B => any & !3,
        0x21 | 0x25 | 0x29 => any & !1,
        _ => any,
    }
}

/// The target is register 0 more often than by chance.
pub fn load(dice: &mut Dice) -> u32 {
    let opcode = dice.pick(&LOADS);
    let target = if dice.chance(4) { 0 } else { dice.between(8, 15) };
    immediate(opcode, BASE, target, offset(dice, opcode))
}

pub fn store(dice: &mut Dice) -> u32 {
    let opcode = dice.pick(&STORES);
    immediate(opcode, BASE, dice.below(16), offset(dice, opcode))
}

/// Words that look like an access and make none.
pub fn no_access(dice: &mut Dice) -> u32 {
    let opcode = if dice.chance(2) { dice.pick(&RESERVED) } else { dice.pick(&UNUSABLE) };
    immediate(opcode, BASE, dice.below(32), dice.below(64))
}

/// Leaves BASE, VALUE and TARGET as they are.
pub fn harmless(dice: &mut Dice) -> u32 {
    let to = dice.between(8, 15);
    match dice.below(4) {
        0 => NOP,
        1 => special(33, dice.below(16), dice.below(16), to),
        2 => special(24, dice.below(16), dice.below(16), 0),
        _ => addiu(to, dice.below(16), dice.below(0x1_0000)),
    }
}
