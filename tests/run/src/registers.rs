//! The registers at the start of a run, by the plan that the words aim with.

use crate::aims::*;
use crate::dice::Dice;
use crate::lengths::Lengths;
use crate::look::{translation, user_mode, DEVICES, RAM};
use crate::plan;
use crate::table;
use reference::Machine;

/// `code` is where the run starts.
pub fn fill(dice: &mut Dice, machine: &mut Machine, lengths: &Lengths, code: u32) {
    for number in 1..32 {
        machine.registers[number] = anything(dice, lengths);
    }
    machine.registers[plan::DEVICES as usize] = DEVICES;
    machine.registers[plan::PRINTERS as usize] = DEVICES + 0x1D0;
    for number in plan::FIRST_RAM..=plan::LAST_RAM {
        machine.registers[number as usize] = in_ram(dice, lengths);
    }
    // Near RAM's end, and just behind it.
    if dice.chance(2) {
        machine.registers[5] = RAM + lengths.ram - 4 * dice.below(4);
    }
    machine.registers[6] = edge(dice, lengths);
    machine.registers[7] = in_execution(dice, lengths);
    machine.registers[8] = in_bootstrap(dice, lengths);
    machine.registers[9] = in_page(dice);
    machine.registers[10] = in_page(dice);
    machine.registers[11] = near_miss(dice, lengths);
    if translation(machine) {
        reach_pages(dice, machine);
    } else if user_mode(machine) {
        for number in 1..=plan::LAST_BASE as usize {
            if machine.registers[number] < RAM && !dice.chance(4) {
                machine.registers[number] = in_ram(dice, lengths);
            }
        }
    }
    for number in plan::FIRST_CODE..=plan::LAST_CODE {
        let distance = 4 * dice.below(64);
        machine.registers[number as usize] = code.wrapping_add(distance);
    }
    if dice.chance(4) {
        machine.registers[plan::LAST_CODE as usize] = anything(dice, lengths);
    }
    for number in plan::FIRST_NUMBER..=plan::LAST_NUMBER {
        let small = dice.pick(&[0, 1, 2, 2, 3, 0x102, 0xFFFF_FFFF]);
        machine.registers[number as usize] = if dice.chance(4) { dice.word() } else { small };
    }
    // Stores into the code that is about to be run.
    if dice.chance(4) {
        machine.registers[4] = code.wrapping_add(4 * dice.below(24));
    }
    let lowest = [0x8000_0000, 0x8000_0000, 0x8000_0001, 0x7FFF_FFFF, 0];
    let minus_one = [0xFFFF_FFFF, 0xFFFF_FFFF, 0xFFFF_FFFE, 1, 0];
    machine.registers[plan::FIRST_EXTREME as usize] = dice.pick(&lowest);
    machine.registers[plan::LAST_EXTREME as usize] = dice.pick(&minus_one);
    machine.registers[plan::REFILL as usize] = table::low(dice, lengths);
}

/// With translation on, most addresses lead through the table: those of user
/// mode have to, and each page is then met in a row's own place.
fn reach_pages(dice: &mut Dice, machine: &mut Machine) {
    let user = user_mode(machine);
    for number in 1..=plan::LAST_BASE as usize {
        if dice.chance(if user { 4 } else { 2 }) {
            continue;
        }
        let to_devices = machine.tlb.iter().find(|row| row.low & 0xFFFF_F000 == DEVICES);
        let row = match to_devices.filter(|_| number <= plan::PRINTERS as usize) {
            Some(row) => *row,
            None => machine.tlb[dice.below(16) as usize],
        };
        let within = machine.registers[number] & 0xFFC;
        machine.registers[number] = row.high & 0xFFFF_F000 | within;
    }
}
