//! Random printers: absent, idle, busy, about to finish, out of paper.

use crate::dice::Dice;
use crate::lengths::Lengths;
use reference::{Machine, Printer};

const BUSY: u32 = 3;

pub fn fill(dice: &mut Dice, machine: &mut Machine, lengths: &Lengths) {
    machine.printer_delay = match dice.below(4) {
        0 => 1,
        1 => dice.between(2, 8),
        2 => dice.between(1, 200),
        _ => dice.pick(&[2, 3, 255, 256, 257, 65_535]),
    };
    machine.installed = match dice.below(8) {
        0 => 0,
        1..=3 => 0xFF,
        _ => dice.below(256),
    };
    // Else nearly every run would start with line 6 on.
    let quiet = dice.chance(2);
    for number in (0..8).filter(|number| machine.installed >> number & 1 != 0) {
        let status = dice.pick(&[1, 1, 2, BUSY, BUSY, BUSY, 4]);
        let busy = status == BUSY;
        if !busy && !quiet && dice.chance(3) {
            machine.pending |= 1 << number;
        }
        machine.printers[number] = Printer {
            status,
            command: if busy { dice.pick(&[0, 2, 2]) } else { command(dice) },
            data0: dice.word(),
            ticks_left: if busy { ticks(dice, machine.printer_delay) } else { 0 },
            paper_count: count(dice, lengths.paper / 8),
        };
    }
}

fn command(dice: &mut Dice) -> u32 {
    if dice.chance(4) {
        dice.word()
    } else {
        dice.below(4)
    }
}

/// Mostly within the length of a short run.
fn ticks(dice: &mut Dice, delay: u32) -> u32 {
    match dice.below(6) {
        0 => 1,
        1 => delay,
        2 => dice.between(1, delay),
        _ => dice.between(1, delay.min(30)),
    }
}

/// The paper is nearly full, or full, more often than by chance.
fn count(dice: &mut Dice, eighth: u32) -> u32 {
    match dice.below(6) {
        0 => eighth,
        1 => eighth.saturating_sub(1),
        2 => eighth.saturating_sub(2),
        3 => 0,
        _ => dice.between(0, eighth),
    }
}
