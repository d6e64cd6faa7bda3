//! Code that leads a machine from its reset to a random state: what the rest
//! of the tests write into an image, done by instructions.

use crate::asm::*;
use crate::call::Call;
use crate::code::put;
use crate::dice::Dice;
use crate::look::{BOOTSTRAP, DEVICES};
use crate::plan;
use reference::{decode, Machine};

/// Behind the vectors.
const FIRST: u32 = 0x200;
const PRINTERS: u32 = 0x1D0;
const BUSY: u32 = 3;

/// Registers that the plan leaves free.
const VALUE: u32 = 26;
const OTHER: u32 = 25;

fn load(words: &mut Vec<u32>, register: u32, value: u32) {
    words.push(immediate(0x0F, 0, register, value >> 16));
    if value & 0xFFFF != 0 {
        words.push(immediate(0x0D, register, register, value));
    }
}

/// The rows that map the code, and a few more.
fn rows(dice: &mut Dice, machine: &Machine, words: &mut Vec<u32>) {
    for (number, row) in (0..).zip(&machine.tlb) {
        if (row.high ^ machine.pc) >> 12 != 0 && !dice.chance(16) {
            continue;
        }
        for (value, register) in [(row.high, ENTRY_HI), (row.low, ENTRY_LO), (number << 8, INDEX)] {
            load(words, VALUE, value);
            words.push(mtc0(VALUE, register));
        }
        words.push(TLBWI);
    }
    load(words, VALUE, machine.entry_hi);
    words.push(mtc0(VALUE, ENTRY_HI));
}

/// Starts those that are busy in the scene, some with an illegal command.
fn printers(dice: &mut Dice, machine: &Machine, words: &mut Vec<u32>) {
    load(words, OTHER, DEVICES + PRINTERS);
    for (place, printer) in (0..).step_by(16).zip(&machine.printers) {
        if printer.status != BUSY {
            continue;
        }
        load(words, VALUE, printer.data0);
        words.push(sw(VALUE, place + 8, OTHER));
        let command = if dice.chance(8) { dice.below(8) } else { printer.command };
        load(words, VALUE, command);
        words.push(sw(VALUE, place + 4, OTHER));
    }
}

fn registers(machine: &Machine, words: &mut Vec<u32>) {
    for number in (1..=plan::LAST_EXTREME).chain([plan::REFILL]) {
        load(words, number, machine.registers[number as usize]);
    }
}

/// Lays the code into the bootstrap ROM of a scene. Gives the parameters of the
/// reset, and the steps that the code takes.
pub fn lay(dice: &mut Dice, call: &mut Call) -> ([u64; 3], u64) {
    let machine = decode(&call.image);
    let mut words = Vec::new();
    load(&mut words, OTHER, DEVICES);
    load(&mut words, VALUE, machine.timer);
    words.push(sw(VALUE, 0x20, OTHER));
    if dice.chance(2) {
        rows(dice, &machine, &mut words);
    }
    if dice.chance(2) {
        printers(dice, &machine, &mut words);
    }
    registers(&machine, &mut words);
    load(&mut words, OTHER, machine.status.0);
    load(&mut words, VALUE, machine.pc);
    words.extend([jr(VALUE), mtc0(OTHER, STATUS)]);
    let length = call.bootstrap.len().max(FIRST as usize + 4 * words.len());
    call.bootstrap.resize(length, 0);
    put(&mut call.bootstrap, 0, &[j(BOOTSTRAP + FIRST), NOP]);
    put(&mut call.bootstrap, FIRST, &words);
    let parameters = [machine.time_scale, machine.printer_delay, machine.installed];
    (parameters.map(u64::from), 2 + words.len() as u64)
}
