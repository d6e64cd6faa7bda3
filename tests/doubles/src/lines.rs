//! Interrupt lines around the step of the access: on already, or turned on by
//! the timer or a printer in that very step, or just before or behind it.

use crate::dice::Dice;
use reference::{Machine, Printer};

const IE: u32 = 1;
const BUSY: u32 = 3;

/// IEc and IM.
pub fn enabled(dice: &mut Dice) -> u32 {
    let lines = match dice.below(4) {
        0 => 0,
        1 => 0xFF00,
        2 => dice.pick(&[0x100, 0x400, 0x4000]),
        _ => dice.word() & 0xFF00,
    };
    lines | if dice.chance(2) { IE } else { 0 }
}

/// In this step, counted from 0; one before or behind it now and then.
fn around(dice: &mut Dice, steps: u32) -> u32 {
    match dice.below(6) {
        0 => steps + 1,
        1 => steps.saturating_sub(1),
        _ => steps,
    }
}

fn printers(dice: &mut Dice, machine: &mut Machine, steps: u32, eighth: u32) {
    machine.printer_delay = steps + 2 + dice.below(4);
    machine.installed = dice.pick(&[0, 1, 0x84, 0xFF]);
    let busy_ones = dice.chance(3);
    for number in (0..8).filter(|number| machine.installed >> number & 1 != 0) {
        let busy = busy_ones && dice.chance(2);
        machine.printers[number] = Printer {
            status: if busy { BUSY } else { dice.pick(&[1, 2, 4]) },
            command: dice.pick(&[0, 2, 2]),
            data0: dice.word(),
            ticks_left: if busy { around(dice, steps) + 1 } else { 0 },
            paper_count: dice.between(0, eighth),
        };
        if !busy && dice.chance(32) {
            machine.pending |= 1 << number;
        }
    }
}

pub fn fill(dice: &mut Dice, machine: &mut Machine, steps: u32, eighth: u32) {
    printers(dice, machine, steps, eighth);
    machine.timer = if dice.chance(3) { around(dice, steps) } else { dice.word() };
    let software = if dice.chance(6) { dice.pick(&[0x100, 0x200, 0x400, 0x700]) } else { 0 };
    let line_6 = if machine.pending != 0 { 0x4000 } else { 0 };
    machine.cause = dice.below(13) << 2 | dice.word() & 0xB000_0000 | software | line_6;
}
