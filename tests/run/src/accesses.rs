//! Random loads and stores, aimed at RAM, ROM, devices and nothing.

use crate::book::*;
use crate::dice::Dice;
use crate::plan::*;
use crate::words::{bare, target, with, with_rs, with_rt};

/// The device area takes whole words only.
fn base(dice: &mut Dice, whole: bool) -> u32 {
    match (dice.below(16), whole) {
        (0, _) => dice.below(32),
        (1..=3, _) => dice.between(FIRST_OTHER, LAST_BASE),
        (4..=7, true) | (4, false) => DEVICES,
        (8..=10, true) | (5, false) => PRINTERS,
        _ => dice.between(FIRST_RAM, LAST_RAM),
    }
}

/// Any word of the device area, and those that change something more often.
fn device_offset(dice: &mut Dice) -> u32 {
    match dice.below(8) {
        0 | 1 => 0x20,
        2 => 4 * dice.below(0x14),
        3 | 4 => 0x1D0 + 16 * dice.below(8) + dice.pick(&[4, 8]),
        _ => 4 * dice.below(0xB8),
    }
}

/// The alignment is right more often than by chance.
fn access(dice: &mut Dice, word: u32) -> u32 {
    let whole = matches!(opcode(word), LW | SW);
    let base = base(dice, whole);
    let offset = match (base, dice.below(16)) {
        (_, 0) => dice.word(),
        (_, 1) => dice.below(64),
        (DEVICES, _) => device_offset(dice),
        (PRINTERS, 2..=12) => 16 * dice.below(8) + dice.pick(&[4, 8]),
        (PRINTERS, _) => 4 * dice.below(0x22),
        (_, 2..=8) => 4 * dice.below(3),
        _ => (4 * dice.below(32)).wrapping_sub(4 * dice.below(8)),
    };
    let aligned = whole && !dice.chance(16) || dice.chance(2);
    let within = if aligned { 0 } else { dice.below(4) };
    with_rs(with(word, 0, 16, offset | within), base)
}

pub fn load(dice: &mut Dice) -> u32 {
    let word = if dice.chance(3) { LW << 26 } else { bare(dice, &LOAD) };
    let word = access(dice, word);
    with_rt(word, target(dice))
}

pub fn store(dice: &mut Dice) -> u32 {
    let word = if dice.chance(3) { SW << 26 } else { bare(dice, &STORE) };
    let word = access(dice, word);
    let devices = rs(word) as u32 == DEVICES || rs(word) as u32 == PRINTERS;
    let small = devices && !dice.chance(4);
    with_rt(word, if small { dice.between(FIRST_NUMBER, LAST_NUMBER) } else { dice.below(32) })
}

/// Words of the device area, each as often as any other, and some behind it.
pub fn devices(dice: &mut Dice) -> u32 {
    let word = if dice.chance(2) { load(dice) } else { store(dice) };
    let whole = word & 0x03FF_0000 | dice.pick(&[LW, SW]) << 26 | (4 * dice.below(0xB8));
    with_rs(whole, DEVICES)
}
