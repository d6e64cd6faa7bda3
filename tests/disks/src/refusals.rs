//! Calls that are wrong in all ways at once: the lowest number is answered, and
//! nothing written. Rules of disks are broken one at a time.

use crate::dice::Dice;
use crate::disk::{BUSY, LINE};
use crate::fields::FIRST_WORD;
use crate::look::RAM;
use crate::met::Met;
use crate::rules::{broken, BROKEN};
use crate::scene::scene;
use crate::sides::{Checked, Sides};
use crate::world::World;
use reference::{Answer, Disk, Machine};

/// The rows of run, of take-back and of the question.
pub const ROWS: [&[u8]; 3] =
    [&[1, 2, 3, 4, 5, 6, 10, 13], &[1, 3, 4, 5, 7, 8, 10, 13], &[1, 3, 4, 5, 8, 10, 11, 12, 13]];

struct Trial {
    world: World,
    budget: u64,
    steps: u64,
    address: u64,
    room: usize,
}

pub fn one(dice: &mut Dice, met: &mut Met) -> Checked {
    let slots = dice.pick(&[1, 2, 17]);
    let mut world = scene(dice, slots);
    world.run(dice.between(0, 20).into(), 0);
    let steps = world.machine().on_hand;
    let mut trial = Trial { world, budget: 3, steps: steps.into(), address: RAM.into(), room: 16 };
    let call = dice.below(3) as usize;
    let mut wrong: Vec<u8> = ROWS[call].iter().copied().filter(|_| dice.chance(8)).collect();
    if dice.chance(2) {
        wrong.push(13);
    }
    // The highest first: what a lower row spoils may be what a higher one looks at.
    wrong.sort_unstable();
    wrong.dedup();
    let spoiled: Vec<u8> =
        wrong.into_iter().rev().filter(|row| spoil(dice, &mut trial, *row, met)).collect();
    let due = spoiled.iter().min().copied().unwrap_or(0);
    met.rows[call][usize::from(due)] += 1;
    let mut sides = Sides::new(trial.world);
    let answer = match call {
        0 => sides.run(trial.budget, 0)?,
        1 => sides.take_back(trial.steps)?,
        _ => sides.last_write(trial.address, &vec![9; trial.room])?.0,
    };
    if due != 0 && answer != Answer::refused(due) || answer.number != due {
        return Err(vec![format!("call {call}, wrong {spoiled:?}: both answered {answer:?}")]);
    }
    Ok(())
}

/// Makes one row apply; false where this machine gives no occasion.
fn spoil(dice: &mut Dice, trial: &mut Trial, row: u8, met: &mut Met) -> bool {
    let world = &mut trial.world;
    match row {
        1 => world.ram.truncate(dice.pick(&[0, 4_095, 100])),
        2 => world.bootstrap.truncate(dice.pick(&[0, 3, 6])),
        3 => world.paper.push(0),
        4 => world.journal.truncate(dice.pick(&[1, 256, 511])),
        5 => return rule(dice, world, met),
        6 => trial.budget = dice.pick(&[1_000_001, 1 << 32]),
        7 => trial.steps += dice.pick(&[1, 2, 1 << 32]),
        8 => return bad_record(world, trial.steps),
        10 => world.index.push(0),
        11 => trial.address += dice.pick(&[1, 2, 1 << 32, 0x1000_0000]),
        12 => trial.room = dice.pick(&[0, 15, 17]),
        _ => return disk_length(dice, world),
    }
    true
}

/// The oldest record on hand, which all calls of take-back here ask for.
fn bad_record(world: &mut World, steps: u64) -> bool {
    let machine = world.machine();
    if steps == 0 || machine.on_hand == 0 || steps > u64::from(machine.on_hand) {
        return false;
    }
    let slots = world.slots();
    let slot = crate::record::newest(machine.next_slot, slots, steps as usize).last();
    world.journal[512 * slot.expect("on hand") + 511] = 1;
    true
}

fn disk_length(dice: &mut Dice, world: &mut World) -> bool {
    let number = dice.below(8) as usize;
    let bytes = &mut world.disks[number];
    let length = bytes.len();
    let other = dice.pick(&[0, 1, 4_096, length + 1, length + 4_096, length.saturating_sub(1)]);
    // A shorter one could be where a record's place lies, which is row 8.
    let longer = other.max(length);
    bytes.resize(longer, 0x33);
    longer != length
}

/// Breaks one rule of disks alone, or another rule.
fn rule(dice: &mut Dice, world: &mut World, met: &mut Met) -> bool {
    if dice.chance(4) {
        world.image[FIRST_WORD - 1] ^= 1;
        return true;
    }
    let mut machine = world.machine();
    let (which, number) = (dice.below(BROKEN.len() as u32) as usize, dice.below(8) as usize);
    breach(dice, &mut machine, which, number, world.ram.len() as u32);
    let wrong = broken(&machine, world.ram.len());
    if wrong != 1 << which {
        return false;
    }
    met.rules[which] += 1;
    world.set_machine(&machine);
    true
}

/// A disk at a transfer that keeps the rules, wherever it is.
fn transfer(machine: &mut Machine, number: usize) -> &mut Disk {
    machine.disks_installed |= 1 << number;
    machine.disks_pending &= !(1 << number);
    machine.cause = machine.cause & !LINE | if machine.disks_pending != 0 { LINE } else { 0 };
    let disk = &mut machine.disks[number];
    let data1 = if disk.data1 == 0 { 0x0001_0101 } else { disk.data1 };
    *disk = Disk { status: BUSY, command: 3, data0: RAM, data1, words_left: 9, ..Disk::default() };
    disk
}

/// One on its way to cylinder 0 or at a reset.
fn on_its_way(machine: &mut Machine, number: usize) -> &mut Disk {
    let disk = transfer(machine, number);
    (disk.command, disk.ticks_left, disk.words_left) = (0, 1, 0);
    disk
}

fn at_rest(machine: &mut Machine, number: usize) -> &mut Disk {
    let disk = on_its_way(machine, number);
    (disk.status, disk.ticks_left) = (1, 0);
    disk
}

fn absent(machine: &mut Machine, number: usize) -> &mut Disk {
    at_rest(machine, number);
    machine.disks_installed &= !(1 << number);
    machine.disks[number] = Disk::default();
    &mut machine.disks[number]
}

fn breach(dice: &mut Dice, machine: &mut Machine, which: usize, number: usize, ram: u32) {
    let delay = machine.printer_delay;
    match which {
        0 => machine.disks_installed |= 1 << dice.between(8, 31),
        1 => {
            machine.disks_pending |= 1 << dice.below(32);
            machine.cause |= LINE;
        }
        2 => machine.cause ^= LINE,
        3 => absent(machine, number).data0 = 1 << dice.below(32),
        4 => at_rest(machine, number).status = dice.pick(&[0, 8, 0x101]),
        5 => at_rest(machine, number).cylinder = dice.pick(&[1, 2, 3, 0x1_0000]),
        6 => at_rest(machine, number).ticks_left = 1,
        7 => at_rest(machine, number).words_left = 1,
        8 => {
            transfer(machine, number);
            machine.disks_pending |= 1 << number;
            machine.cause |= LINE;
        }
        9 => on_its_way(machine, number).command = dice.pick(&[1, 5, 0xFF]),
        10 => on_its_way(machine, number).ticks_left = dice.pick(&[0, delay + 1, 1 << 16]),
        11 => on_its_way(machine, number).words_left = 1,
        12 => on_its_way(machine, number).command = 0xFF_FF02,
        13 => transfer(machine, number).words_left = dice.pick(&[0, 1_025, 1 << 31]),
        14 => transfer(machine, number).ticks_left = 1,
        15 => transfer(machine, number).data1 &= 0xFFFF,
        16 => transfer(machine, number).command = dice.pick(&[0xFF_0003, 0xFF03, 0xFF_FF04]),
        17 => transfer(machine, number).data0 += dice.between(1, 3),
        _ => {
            let places = [ram - 0xFFC, ram, 0x8000_0000, 0xE000_0000, 0xFFFF_F000];
            transfer(machine, number).data0 = RAM.wrapping_add(dice.pick(&places));
        }
    }
}
