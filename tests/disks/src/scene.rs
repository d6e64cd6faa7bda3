//! Random machines with 0 to 8 disks, at rest, on their way and in the middle of
//! transfers, many of them onto the same words of RAM.

use crate::code::{self, DEVICES, DOUBLED, FIRST_COMMAND, MEETINGS, MEMORY};
use crate::dice::Dice;
use crate::disk::{self, BUSY, LINE};
use crate::look::RAM;
use crate::record::RECORD_BYTES;
use crate::world::{set_word, World};
use reference::{Disk, Entry, Machine, Printer, Status, IMAGE_BYTES};

const KERNEL: u32 = 0x1000_0000;
const VM: u32 = 0x0100_0000;

pub fn scene(dice: &mut Dice, slots: usize) -> World {
    let frames = dice.pick(&[1, 2, 2, 2, 3]);
    let mut world = World {
        image: vec![0; IMAGE_BYTES],
        execution: vec![0; 0x200],
        bootstrap: vec![0; 0x200],
        ram: vec![0; 4_096 * frames],
        paper: vec![0x20; dice.pick(&[0, 8, 64])],
        journal: dice.bytes(RECORD_BYTES * slots),
        index: vec![0; 16 * frames],
        disks: Default::default(),
    };
    let mut machine = processor(dice, world.ram.len() as u32);
    printers(dice, &mut machine, world.paper.len() as u32 / 8);
    let meeting = meeting(dice, world.ram.len() as u32);
    lay(dice, &mut world, meeting);
    let busy = dice.pick(&[2, 8, 14, 16]);
    for number in disks(dice) {
        install(dice, &mut machine, &mut world, number, meeting, busy);
    }
    machine.cause |= if machine.disks_pending != 0 { LINE } else { 0 };
    world.set_machine(&machine);
    world
}

fn disks(dice: &mut Dice) -> Vec<usize> {
    let map = match dice.below(8) {
        0 => 0,
        1..=4 => 0xFF,
        _ => dice.below(256),
    };
    (0..8).filter(|number| map >> number & 1 != 0).collect()
}

/// A word of RAM that transfers of several disks come by at once.
fn meeting(dice: &mut Dice, ram: u32) -> u32 {
    let place = match dice.below(6) {
        // With PC, so that each instruction has just been moved.
        0 => 0,
        1 => 4 * dice.below(ram / 4),
        _ => dice.pick(&MEETINGS),
    };
    place.min(ram - 4)
}

fn processor(dice: &mut Dice, ram: u32) -> Machine {
    let mut machine = Machine::default();
    (machine.pc, machine.next_pc) = (RAM, RAM + 4);
    machine.random = dice.between(1, 15) << 8;
    machine.timer = if dice.chance(4) { dice.below(30) } else { dice.word() };
    machine.time_scale = 1;
    machine.printer_delay = dice.pick(&[1, 2, 3, 7, 30]);
    machine.clock = dice.pick(&[0, 9, u64::MAX - 5, u64::from(u32::MAX) - 5]);
    let lines = dice.pick(&[0, 0, 0x800, 0x801, 0x4801, 0xFF01]);
    machine.status = Status(KERNEL | lines);
    machine.cause = if dice.chance(8) { 0x100 } else { 0 };
    for register in &mut machine.registers[1..8] {
        *register = dice.word();
    }
    (machine.registers[DEVICES as usize], machine.registers[MEMORY as usize]) = (0x1000_0000, RAM);
    for (number, value) in code::commands(dice, ram).into_iter().enumerate() {
        machine.registers[FIRST_COMMAND as usize + number] = value;
    }
    if dice.chance(3) {
        doubled(dice, &mut machine);
    }
    machine
}

/// Translation on, RAM in its own place, and a page that two entries match.
fn doubled(dice: &mut Dice, machine: &mut Machine) {
    machine.status = Status(machine.status.0 | VM);
    for frame in 0..3 {
        let page = RAM + 0x1000 * frame;
        machine.tlb[frame as usize] = Entry { high: page, low: page | 0x700 };
    }
    machine.registers[DOUBLED as usize] = 0x8000_0000;
    for number in [3, dice.between(4, 15) as usize] {
        machine.tlb[number] = Entry { high: 0x8000_0000, low: RAM | 0x700 };
    }
}

fn printers(dice: &mut Dice, machine: &mut Machine, eighth: u32) {
    machine.installed = dice.pick(&[0, 0xFF, 0x55]);
    for number in (0..8).filter(|number| machine.installed >> number & 1 != 0) {
        let busy = dice.chance(2);
        machine.printers[number] = Printer {
            status: if busy { BUSY } else { dice.pick(&[1, 2, 4]) },
            command: if busy { dice.pick(&[0, 2]) } else { dice.below(4) },
            data0: dice.word(),
            ticks_left: if busy { dice.between(1, machine.printer_delay) } else { 0 },
            paper_count: dice.between(0, eighth),
        };
    }
}

/// The program in RAM, its handlers in ROM.
fn lay(dice: &mut Dice, world: &mut World, at: u32) {
    let words = dice.between(8, 60) as usize;
    for (number, word) in code::program(dice, words, at).into_iter().enumerate() {
        set_word(&mut world.ram, 4 * number, word);
    }
    for vector in [0, 0x80] {
        for (number, word) in code::handler(dice).into_iter().enumerate() {
            set_word(&mut world.execution, vector + 4 * number, word);
        }
    }
}

/// Words of a disk: instructions, and often what RAM holds already.
fn fill(dice: &mut Dice, world: &World, bytes: usize, at: u32) -> Vec<u8> {
    let (mut disk, like) = (vec![0; bytes], dice.below(3));
    for place in (0..bytes).step_by(4) {
        let value = match like {
            0 => code::instruction(dice, at),
            1 => world.ram_word(place % world.ram.len()),
            _ => dice.word(),
        };
        set_word(&mut disk, place, value);
    }
    disk
}

/// `busy` of sixteen are at a transfer.
fn install(
    dice: &mut Dice,
    machine: &mut Machine,
    world: &mut World,
    number: usize,
    at: u32,
    busy: u32,
) {
    let counts = [dice.pick(&[1, 1, 2, 3, 0]), dice.pick(&[1, 1, 2, 0]), dice.pick(&[1, 1, 2, 0])];
    let [cylinders, heads, sectors] = if dice.chance(3) { counts } else { [2, 1, 1] };
    let data1 = cylinders << 16 | heads << 8 | sectors;
    let mut it = Disk { status: dice.pick(&[1, 1, 2, 4, 5, 6, 7]), data1, ..Disk::default() };
    it.cylinder = if cylinders == 0 { 0 } else { dice.below(cylinders) };
    it.command = if dice.chance(2) { dice.word() } else { dice.below(5) };
    it.data0 = RAM + 4 * dice.below(0x400);
    match dice.below(8) {
        0 => it.data0 = dice.word(),
        1 => it.data0 += dice.between(1, 3),
        _ => {}
    }
    world.disks[number] = fill(dice, world, disk::bytes(&it) as usize, at);
    machine.disks_installed |= 1 << number;
    let ram = world.ram.len() as u32;
    match dice.below(16) < busy {
        true if disk::bytes(&it) != 0 => transfer(dice, &mut it, ram, at),
        _ if cylinders != 0 && dice.chance(4) => seek(dice, &mut it, machine.printer_delay),
        _ if dice.chance(3) => machine.disks_pending |= 1 << number,
        _ => {}
    }
    machine.disks[number] = it;
}

/// In the middle of a transfer whose next words come by the meeting place.
fn transfer(dice: &mut Dice, it: &mut Disk, ram: u32, at: u32) {
    let near = at.saturating_sub(4 * dice.pick(&[0, 0, 0, 1, 2, 5]));
    let most = (near / 4).min(1_023);
    let least = (near.saturating_sub(ram - 4_096)) / 4;
    let moved = if least > most { return } else { pick_moved(dice, least, most) };
    it.status = BUSY;
    it.words_left = 1_024 - moved;
    it.data0 = RAM + near - 4 * moved;
    let (head, sector) = (dice.below(disk::heads(it)), dice.below(disk::sectors(it)));
    let upper = if dice.chance(8) { dice.word() & 0xFF00_0000 } else { 0 };
    it.command = dice.pick(&[disk::READ, disk::WRITE]) | head << 16 | sector << 8 | upper;
}

fn pick_moved(dice: &mut Dice, least: u32, most: u32) -> u32 {
    match dice.below(4) {
        0 => least,
        1 => most,
        _ => dice.between(least, most),
    }
}

fn seek(dice: &mut Dice, it: &mut Disk, delay: u32) {
    it.status = BUSY;
    it.ticks_left = dice.between(1, delay);
    let cylinder = dice.below(disk::cylinders(it));
    it.command = dice.pick(&[0, disk::SEEK | cylinder << 8]);
}
