//! A random translation table: few pages and address spaces, so that rows
//! match, and match but for the ASID. Seldom twice: a run stops before that.

use crate::aims::PAGES;
use crate::dice::Dice;
use crate::lengths::Lengths;
use crate::look::{BOOTSTRAP, DEVICES, RAM};
use reference::{Entry, Machine};

const FRAME: u32 = 0x1000;
const GOOD: u32 = 0x600;
const GLOBAL: u32 = 0x100;

pub fn asid(dice: &mut Dice) -> u32 {
    dice.pick(&[0, 0, 0x40, 0x800, 0xFC0])
}

/// A frame and the bits N, D, V and G.
pub fn low(dice: &mut Dice, lengths: &Lengths) -> u32 {
    let frame = match dice.below(16) {
        0 => DEVICES,
        1 => BOOTSTRAP,
        2 => 0,
        3 => dice.pick(&[0x7000_0000, RAM + lengths.ram, RAM - FRAME, DEVICES + FRAME, !0xFFF]),
        // A frame that something is at, but for one bit.
        4 => dice.pick(&[RAM, DEVICES, BOOTSTRAP, 0]) ^ 1 << dice.between(12, 31),
        _ => RAM + FRAME * dice.below(lengths.ram / FRAME),
    };
    let bits = match dice.below(8) {
        0 => dice.below(16) << 8,
        1 => 0x200,
        2 => 0x400,
        _ => GOOD,
    };
    frame | bits | (dice.below(2) * GLOBAL) | dice.below(2) << 11
}

/// Whether both rows match one page in some address space.
fn clash(one: &Entry, other: &Entry) -> bool {
    (one.high ^ other.high) & 0xFFFF_F000 == 0
        && ((one.high ^ other.high) & 0xFC0 == 0 || (one.low | other.low) & GLOBAL != 0)
}

/// Gives a row a page that no other row speaks of.
fn move_away(machine: &mut Machine, number: usize) {
    let row = &mut machine.tlb[number];
    row.high = 0xE000_0000 + FRAME * number as u32 | row.high & 0xFC0;
}

pub fn fill(dice: &mut Dice, machine: &mut Machine, lengths: &Lengths) {
    let doubles = dice.chance(8);
    for number in 0..16 {
        let page = match dice.below(12) {
            0 => dice.word() & 0xFFFF_F000,
            1 | 2 => dice.pick(&PAGES) ^ 1 << dice.between(12, 31),
            _ => dice.pick(&PAGES),
        };
        let row = Entry { high: page | asid(dice), low: low(dice, lengths) };
        let clashes = machine.tlb[..number].iter().any(|other| clash(other, &row));
        machine.tlb[number] = row;
        if clashes && !doubles {
            move_away(machine, number);
        }
    }
    let page = if dice.chance(2) { dice.pick(&PAGES) } else { dice.word() & 0xFFFF_F000 };
    machine.entry_hi = page | asid(dice);
    machine.entry_lo = low(dice, lengths);
}

/// A row that leads the page of the code to its frame, mostly the only one.
pub fn map(dice: &mut Dice, machine: &mut Machine, page: u32, frame: u32) {
    let row = dice.below(16) as usize;
    let space = machine.entry_hi & 0xFC0;
    let dirty = dice.pick(&[0x400, 0x400, 0]);
    machine.tlb[row] = if dice.chance(3) {
        Entry { high: page | asid(dice), low: frame | 0x200 | dirty | GLOBAL }
    } else {
        Entry { high: page | space, low: frame | 0x200 | dirty }
    };
    if dice.chance(16) {
        return;
    }
    let code = machine.tlb[row];
    for number in (0..16).filter(|number| *number != row) {
        if clash(&machine.tlb[number], &code) {
            move_away(machine, number);
        }
    }
}
