//! Random machines that keep the rules, steered to where things happen.
#![allow(dead_code)]

use super::asm::{addiu, immediate, jr, mfc0, special, EPC, RFE};
use super::dice::Dice;
use super::{put_words, Bench, BOOT, BUS, RAM};
use reference::{Entry, Machine, Printer, Status};

const FUNCTIONS: [u32; 30] = [
    0, 2, 3, 4, 6, 7, 8, 9, 12, 13, 16, 17, 18, 19, 24, 25, 26, 27, 32, 33, 34, 35, 36, 37, 38, 39,
    42, 43, 32, 34,
];

const OPCODES: [u32; 32] = [
    1, 4, 5, 6, 7, 8, 9, 10, 11, 12, 13, 14, 15, 0x20, 0x21, 0x22, 0x23, 0x24, 0x25, 0x26, 0x28,
    0x29, 0x2A, 0x2B, 0x2E, 0x23, 0x2B, 0x23, 0x2B, 0x2B, 0x2B, 0x2B,
];

const PLACES: [u32; 10] = [
    RAM,
    RAM + 0x40,
    RAM + 0x1000,
    RAM + 0x1FFC,
    BUS,
    BUS + 0x1D0,
    BOOT,
    0,
    0x8000_0000,
    0xC000_1000,
];

pub fn instruction(dice: &mut Dice) -> u32 {
    let (rs, rt, rd) = (dice.below(32), dice.below(32), dice.below(32));
    match dice.below(16) {
        0 => dice.word(),
        1..=4 => special(dice.pick(&FUNCTIONS), rs, rt, rd) | dice.below(32) << 6,
        5 => cop0(dice),
        6 => 0x0800_0000 | dice.below(2) << 26 | dice.below(0x40),
        7 => immediate(1, rs, dice.pick(&[0, 1, 16, 17]), dice.below(16)),
        8 => immediate(dice.below(4) + 4, rs, rt, dice.below(16)),
        9 => immediate(0x2B, dice.below(8), rt, dice.below(0x90) * 4),
        10 => immediate(0x23, dice.below(8), rt, dice.below(0x90) * 4),
        11..=13 => immediate(dice.pick(&OPCODES), rs, rt, dice.below(64)),
        _ => immediate(dice.pick(&OPCODES), rs, rt, dice.word()),
    }
}

fn cop0(dice: &mut Dice) -> u32 {
    let number = dice.pick(&[0, 1, 2, 8, 10, 12, 13, 14, 15]);
    match dice.below(3) {
        0 => 0x4200_0000 | dice.pick(&[1, 2, 6, 8, 16, 0]),
        1 => 0x4000_0000 | dice.below(32) << 16 | number << 11,
        _ => 0x4080_0000 | dice.below(32) << 16 | number << 11,
    }
}

fn value(dice: &mut Dice) -> u32 {
    match dice.below(8) {
        0 => dice.below(4),
        1 => dice.pick(&[0x7FFF_FFFF, 0x8000_0000, 0xFFFF_FFFF]),
        2 | 3 => dice.word(),
        4 => dice.pick(&PLACES).wrapping_add(dice.below(16)),
        _ => dice.pick(&PLACES) + dice.below(8) * 4,
    }
}

fn printers(dice: &mut Dice, machine: &mut Machine, eighth: u32) {
    machine.installed = dice.below(256);
    for number in 0..8 {
        if machine.installed >> number & 1 == 0 {
            continue;
        }
        let status = 1 + dice.below(4);
        let busy = status == 3;
        if !busy && dice.chance(4) {
            machine.pending |= 1 << number;
        }
        machine.printers[number] = Printer {
            status,
            command: if busy { dice.pick(&[0, 2]) } else { dice.below(4) },
            data0: dice.word(),
            ticks_left: if busy { 1 + dice.below(machine.printer_delay) } else { 0 },
            paper_count: dice.below(eighth + 1),
        };
    }
}

/// Translation on, with the code's pages mapped and user mode now and then.
fn mapped(dice: &mut Dice, machine: &mut Machine) {
    machine.status = Status(machine.status.0 | 0x0100_0000);
    machine.tlb[0] = Entry { high: RAM, low: RAM | 0x700 };
    machine.tlb[1] = Entry { high: 0x8000_0000, low: RAM | dice.pick(&[0x700, 0x300]) };
    machine.pc = dice.pick(&[RAM, 0x8000_0000, 0x8000_0000]);
    for register in &mut machine.registers[4..] {
        if dice.chance(2) {
            let page = dice.pick(&[0x8000_0000, 0xC000_1000, 0x5000_0000, 0xD000_0000]);
            *register = page + 4 * dice.below(64);
        }
    }
}

fn cp0(dice: &mut Dice, machine: &mut Machine) {
    let low = dice.pick(&[0x00, 0x00, 0x01, 0x02, 0x03, 0x3C]);
    let vm = dice.pick(&[0, 0, 0x0100_0000, 0x0600_0000]);
    let rest = dice.pick(&[0, 0x1000_0000, 0x1040_0000, 0x1040_0000]);
    machine.status = Status(low | vm | rest | dice.word() & 0xFF00);
    let lines = if dice.chance(2) { 0x700 } else { 0 };
    machine.cause = dice.below(13) << 2 | dice.word() & (0xB000_0000 | lines);
    if machine.pending != 0 {
        machine.cause |= 0x4000;
    }
    machine.index = dice.word() & 0x8000_3F00;
    machine.random = (1 + dice.below(15)) << 8;
    machine.entry_hi = dice.word() & 0xFFFF_F000 | dice.below(2) << 6;
    machine.entry_lo = dice.word() & 0xFFFF_FF00;
    machine.bad_vaddr = dice.word();
    machine.epc = value(dice);
    for entry in &mut machine.tlb {
        let page = dice.pick(&[RAM, RAM + 0x1000, 0x8000_0000, 0xC000_1000, 0x5000_0000]);
        let frame = dice.pick(&[RAM, RAM, RAM, RAM + 0x1000, BUS, BOOT, 0x7000_0000]);
        let bits = dice.pick(&[0x700, 0x700, 0x600, 0x600, 0x300, 0x500]);
        *entry = Entry { high: page | dice.below(2) << 6, low: frame | bits };
    }
}

/// Leaves one entry to a page, so that a run does not stop before its first
/// step. The others get pages that no address of these machines speaks of.
fn apart(machine: &mut Machine) {
    for number in 1..16 {
        let (before, from) = machine.tlb.split_at_mut(number);
        let page = |entry: &Entry| entry.high & 0xFFFF_F000;
        if before.iter().any(|other| page(other) == page(&from[0])) {
            from[0].high = 0x3000_0000 + 0x1000 * number as u32;
        }
    }
}

/// Goes on behind the instruction that raised the exception.
const HANDLER: [u32; 4] = [mfc0(26, EPC), addiu(26, 26, 4), jr(26), RFE];

fn handlers(bench: &mut Bench) {
    for vector in [0x00, 0x80] {
        put_words(&mut bench.execution, vector, &HANDLER);
        put_words(&mut bench.bootstrap, 0x100 + vector, &HANDLER);
    }
}

/// Sizes of paper and journal vary, 0 included.
pub fn random_bench(dice: &mut Dice) -> Bench {
    let mut bench = Bench::new();
    let eighth = dice.below(4);
    bench.paper = (0..eighth * 8).map(|_| dice.word() as u8).collect();
    bench.journal = vec![0; 512 * dice.pick(&[0, 1, 3, 50]) as usize];
    let slots = bench.slots();
    let machine = &mut bench.machine;
    *machine = Machine::default();
    machine.time_scale = 1 + dice.below(255);
    machine.printer_delay = 1 + dice.below(6);
    printers(dice, machine, eighth);
    cp0(dice, machine);
    for register in &mut machine.registers[1..] {
        *register = value(dice);
    }
    machine.registers[1] = BUS;
    machine.registers[2] = BUS;
    for register in &mut machine.registers[3..8] {
        *register = RAM + 4 * dice.below(0x400);
    }
    machine.hi = dice.word();
    machine.lo = dice.word();
    machine.pc = match dice.below(8) {
        0 => value(dice),
        1 => BOOT,
        2 => 0x8000_0000,
        _ => RAM,
    };
    if dice.chance(3) {
        mapped(dice, machine);
    }
    if !dice.chance(4) {
        apart(machine);
    }
    machine.next_pc = if dice.chance(8) { value(dice) } else { machine.pc.wrapping_add(4) };
    if dice.chance(4) {
        machine.slot_flag = 1;
        machine.branch_address =
            if dice.chance(2) { machine.pc.wrapping_sub(4) } else { value(dice) };
    }
    machine.clock = dice.long();
    machine.timer = if dice.chance(3) { dice.below(20) } else { dice.word() };
    machine.next_slot = if slots == 0 { 0 } else { dice.below(slots) };
    for bytes in [&mut bench.ram, &mut bench.execution, &mut bench.bootstrap] {
        for place in (0..bytes.len()).step_by(4) {
            put_words(bytes, place, &[instruction(dice)]);
        }
    }
    if !dice.chance(4) {
        handlers(&mut bench);
    }
    bench
}

/// A random machine with a journal of so many slots, full of random bytes.
pub fn random_bench_with_slots(dice: &mut Dice, slots: u32) -> Bench {
    let mut bench = random_bench(dice);
    bench.journal = (0..slots * 512).map(|_| dice.word() as u8).collect();
    bench.machine.next_slot = if slots == 0 { 0 } else { dice.below(slots) };
    bench
}
