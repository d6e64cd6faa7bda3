//! Random CP0 registers, clock and timer.

use crate::aims::anything;
use crate::dice::Dice;
use crate::lengths::Lengths;
use reference::{Machine, Status};

const USER: u32 = 1 << 1;
const BEV: u32 = 1 << 22;
const VM: u32 = 1 << 24;
const CU0: u32 = 1 << 28;
const STACKS_BELOW: u32 = 0x0600_003C;

/// The printers come first: line 6 follows from the pending map.
pub fn fill(dice: &mut Dice, machine: &mut Machine, lengths: &Lengths) {
    let (user, vm) = dice.pick(&[(0, 0), (0, 0), (0, VM), (USER, 0), (USER, VM), (USER, VM)]);
    let enabled = dice.below(2);
    let boot = dice.below(2) * BEV;
    let cp0 = dice.below(2) * CU0;
    let stacks = dice.word() & STACKS_BELOW;
    machine.status = Status(user | vm | enabled | boot | cp0 | stacks | interrupt_mask(dice));
    let lines = match dice.below(6) {
        0 => dice.word() & 0x700,
        1 => dice.pick(&[0x100, 0x200, 0x400]),
        _ => 0,
    };
    let line_6 = if machine.pending != 0 { 0x4000 } else { 0 };
    machine.cause = dice.word() & 0xB000_0000 | dice.below(13) << 2 | lines | line_6;
    machine.index = dice.word() & 0x8000_3F00;
    machine.random = dice.between(1, 15) << 8;
    machine.bad_vaddr = anything(dice, lengths);
    machine.epc = anything(dice, lengths);
    machine.time_scale = dice.between(1, 255);
    machine.timer = match dice.below(4) {
        0 => dice.below(3),
        1 => dice.below(40),
        2 => dice.pick(&[0, 1, 0x8000_0000, 0xFFFF_FFFF]),
        _ => dice.word(),
    };
    machine.clock = match dice.below(4) {
        0 => u64::MAX - u64::from(dice.below(20)),
        1 => dice.long() << 32 | u64::from(u32::MAX - dice.below(20)),
        _ => dice.long(),
    };
}

fn interrupt_mask(dice: &mut Dice) -> u32 {
    match dice.below(6) {
        0 => 0,
        1 | 2 => 0xFF00,
        3 => 0x100 << dice.below(8),
        _ => dice.word() & 0xFF00,
    }
}
