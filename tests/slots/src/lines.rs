//! Interrupt lines: on from the start, or turned on by the timer or a printer
//! some steps later.

use crate::dice::Dice;
use reference::{Machine, Printer};

const IE: u32 = 1;
const BUSY: u32 = 3;

/// Within a run of middle length.
const SOON: u32 = 12;

/// IEc and IM.
pub fn enabled(dice: &mut Dice) -> u32 {
    let lines = match dice.below(4) {
        0 => 0xFF00,
        1 => dice.pick(&[0x100, 0x200, 0x400, 0x4000]),
        _ => dice.word() & 0xFF00,
    };
    lines | if dice.chance(2) { IE } else { 0 }
}

fn printers(dice: &mut Dice, machine: &mut Machine, eighth: u32) {
    machine.printer_delay = SOON + dice.below(4);
    machine.installed = dice.pick(&[0, 1, 3, 0x84, 0xFF]);
    for number in (0..8).filter(|number| machine.installed >> number & 1 != 0) {
        let busy = dice.chance(4);
        machine.printers[number] = Printer {
            status: if busy { BUSY } else { dice.pick(&[1, 2, 4]) },
            command: dice.pick(&[0, 2, 2]),
            data0: dice.word(),
            ticks_left: if busy { dice.between(1, SOON) } else { 0 },
            paper_count: dice.between(0, eighth),
        };
        if !busy && dice.chance(64) {
            machine.pending |= 1 << number;
        }
    }
}

pub fn fill(dice: &mut Dice, machine: &mut Machine, eighth: u32) {
    printers(dice, machine, eighth);
    machine.timer = if dice.chance(2) { dice.below(SOON) } else { dice.word() };
    let lines = if dice.chance(12) { dice.pick(&[0x100, 0x200, 0x400, 0x700]) } else { 0 };
    let line_6 = if machine.pending != 0 { 0x4000 } else { 0 };
    machine.cause = dice.below(13) << 2 | dice.word() & 0xB000_0000 | lines | line_6;
}
