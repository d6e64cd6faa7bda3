//! Numbers that registers hold: addresses where something happens, edges of
//! arithmetic, anything.

use crate::dice::Dice;
use crate::lengths::Lengths;
use crate::look::{BOOTSTRAP, DEVICES, DEVICE_BYTES, RAM};

/// Pages that rows of the table speak of: RAM's own, user mode's first and
/// last, ends of regions for J, and pages that user mode must not see.
pub const PAGES: [u32; 9] = [
    0x2000_0000,
    0x2000_1000,
    0x8000_0000,
    0x8000_1000,
    0x8FFF_F000,
    0xC000_1000,
    0xFFFF_F000,
    0x5000_0000,
    0x7FFF_F000,
];

/// Where one thing ends and another starts.
pub fn edge(dice: &mut Dice, lengths: &Lengths) -> u32 {
    let ends = [
        RAM,
        RAM + lengths.ram,
        lengths.execution,
        BOOTSTRAP,
        BOOTSTRAP + lengths.bootstrap,
        DEVICES,
        DEVICES + DEVICE_BYTES,
        0x8000_0000,
        0x7000_0000,
        0x1000_1000,
        0,
    ];
    let near = 4 * dice.below(6);
    dice.pick(&ends).wrapping_sub(near)
}

pub fn in_ram(dice: &mut Dice, lengths: &Lengths) -> u32 {
    RAM + 4 * dice.below(lengths.ram / 4)
}

pub fn in_execution(dice: &mut Dice, lengths: &Lengths) -> u32 {
    4 * dice.below(lengths.execution / 4)
}

pub fn in_bootstrap(dice: &mut Dice, lengths: &Lengths) -> u32 {
    BOOTSTRAP + 4 * dice.below(lengths.bootstrap / 4)
}

pub fn in_page(dice: &mut Dice) -> u32 {
    dice.pick(&PAGES) + 4 * dice.below(1_024)
}

/// One bit from a place where something is.
pub fn near_miss(dice: &mut Dice, lengths: &Lengths) -> u32 {
    let place = match dice.below(4) {
        0 => in_ram(dice, lengths),
        1 => in_execution(dice, lengths),
        2 => in_bootstrap(dice, lengths),
        _ => DEVICES + 4 * dice.below(DEVICE_BYTES / 4),
    };
    place ^ 1 << dice.between(12, 31)
}

pub fn number(dice: &mut Dice) -> u32 {
    match dice.below(8) {
        0 => dice.below(4),
        1 => 0,
        2 => 0x8000_0000,
        3 => 0xFFFF_FFFF,
        4 => dice.pick(&[0x7FFF_FFFF, 1, 0x8000_0001, 0xFFFF_8000, 0x0001_0000]),
        5 => 1 << dice.below(32),
        _ => dice.word(),
    }
}

pub fn anything(dice: &mut Dice, lengths: &Lengths) -> u32 {
    match dice.below(8) {
        0 => edge(dice, lengths).wrapping_add(dice.below(8)),
        1 => in_ram(dice, lengths),
        2 => in_page(dice),
        3 if dice.chance(2) => DEVICES + dice.below(DEVICE_BYTES),
        3 => near_miss(dice, lengths),
        _ => number(dice),
    }
}
