//! A table in which a page has one entry, two or more, and entries that only
//! look like more.

use crate::dice::Dice;
use crate::look::{ASID, GLOBAL, RAM, VALID};
use reference::{Entry, Machine};

const FRAME: u32 = 0x1000;

pub fn asid(dice: &mut Dice) -> u32 {
    dice.pick(&[0, 0x40, 0x800, 0xFC0])
}

/// D and V as they come, mostly on.
fn bits(dice: &mut Dice) -> u32 {
    match dice.below(2) {
        0 => dice.below(4) << 9,
        _ => 0x600,
    }
}

fn frame(dice: &mut Dice, frames: u32) -> u32 {
    match dice.below(8) {
        0 => dice.pick(&[0, 0x1000_0000, 0x1FC0_0000, 0x7000_0000, RAM + FRAME * frames]),
        _ => RAM + FRAME * dice.below(frames),
    }
}

/// An entry that matches `page` in the address space of EntryHi.
pub fn matching(dice: &mut Dice, page: u32, space: u32, low: u32) -> Entry {
    if dice.chance(2) {
        return Entry { high: page | space, low: low | dice.below(2) * GLOBAL };
    }
    Entry { high: page | asid(dice), low: low | GLOBAL }
}

/// An entry of the page that belongs to another address space.
fn stranger(dice: &mut Dice, page: u32, space: u32, low: u32) -> Entry {
    let other = (space ^ dice.between(1, 63) << 6) & ASID;
    Entry { high: page | other, low }
}

/// Pages that no address of these machines lies in, among them some that are
/// one bit from `page`.
pub fn elsewhere(dice: &mut Dice, number: u32, page: u32, used: &[u32]) -> Entry {
    let mut high = 0xA000_0000 + FRAME * number;
    let near = page ^ 1 << dice.between(12, 31);
    if dice.chance(4) && !used.contains(&near) {
        high = near;
    }
    let low = frame(dice, 1) | dice.below(16) << 8;
    Entry { high: high | asid(dice), low }
}

/// How many entries match the page.
fn count(dice: &mut Dice) -> usize {
    match dice.below(16) {
        0 => 0,
        1..=4 => 1,
        5 => 3,
        6 => dice.between(4, 13) as usize,
        _ => 2,
    }
}

/// The numbers 0 to 15, in any order.
pub fn shuffled(dice: &mut Dice) -> [usize; 16] {
    let mut rows = [0; 16];
    for number in 0..16 {
        let place = dice.between(0, number) as usize;
        rows[number as usize] = rows[place];
        rows[place] = number as usize;
    }
    rows
}

/// Where an entry is to match: the page, and the address space at the access.
#[derive(Clone, Copy)]
pub struct Spot {
    pub page: u32,
    pub space: u32,
}

/// Entries for a page at the first of `rows`. Those that match have the same
/// frame, now and then.
pub fn double(dice: &mut Dice, machine: &mut Machine, rows: &[usize], spot: Spot, frames: u32) {
    let Spot { page, space } = spot;
    let same = if dice.chance(2) { Some(frame(dice, frames)) } else { None };
    let matches = count(dice).min(rows.len());
    let (first, rest) = rows.split_at(matches);
    for row in first {
        let low = same.unwrap_or_else(|| frame(dice, frames)) | bits(dice);
        machine.tlb[*row] = matching(dice, page, space, low);
    }
    let strangers = dice.below(3) as usize;
    for row in rest.iter().take(strangers) {
        let low = frame(dice, frames) | bits(dice);
        machine.tlb[*row] = stranger(dice, page, space, low);
    }
}

/// The one entry that leads the code's page to RAM's first frame.
pub fn code(dice: &mut Dice, machine: &mut Machine, row: usize, spot: Spot) {
    let valid = if dice.chance(64) { 0 } else { VALID };
    let low = RAM | valid | dice.below(2) << 10;
    machine.tlb[row] = matching(dice, spot.page, spot.space, low);
}
