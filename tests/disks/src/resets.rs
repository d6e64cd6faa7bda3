//! Resets with maps and geometries, right and wrong.

use crate::dice::Dice;
use crate::met::Met;
use crate::sides::{Checked, Sides};
use crate::world::{Numbers, World};
use reference::{Answer, Disk, IMAGE_BYTES};

fn geometry(dice: &mut Dice) -> u64 {
    match dice.below(8) {
        0 => 0,
        1 => u64::from(u32::MAX),
        2 => u64::from(dice.word()),
        _ => u64::from(dice.below(3) << 16 | dice.below(3) << 8 | dice.below(3)),
    }
}

fn numbers(dice: &mut Dice) -> Numbers {
    let disks: u64 = match dice.below(8) {
        0 => dice.pick(&[256, 1 << 32, (1 << 32) + 3, u64::MAX, 1 << 63]),
        1 => 0xFF,
        _ => dice.below(256).into(),
    };
    let mut numbers = Numbers { time_scale: 1, delay: 1, installed: 0, disks, geometry: [0; 8] };
    for number in 0..8 {
        let there = disks >> number & 1 != 0;
        if there || dice.chance(60) {
            numbers.geometry[number] = geometry(dice);
        }
        if dice.chance(60) {
            numbers.geometry[number] |= 1 << dice.between(32, 63);
        }
    }
    if dice.chance(16) {
        numbers.time_scale = dice.pick(&[0, 256]);
    }
    numbers
}

fn row_6(numbers: &Numbers) -> bool {
    let Numbers { time_scale, disks, geometry, .. } = *numbers;
    let bad = |(number, it): (usize, &u64)| {
        *it > u64::from(u32::MAX) || *it != 0 && disks >> number & 1 == 0
    };
    time_scale != 1 || disks > 0xFF || geometry.iter().enumerate().any(bad)
}

pub fn one(dice: &mut Dice, met: &mut Met) -> Checked {
    let numbers = numbers(dice);
    let image = if dice.chance(16) { dice.pick(&[0, 509, 740, 742]) } else { IMAGE_BYTES };
    let index = if dice.chance(16) { dice.pick(&[0, 15, 17]) } else { 32 };
    let world = World { image: dice.bytes(image), index: dice.bytes(index), ..World::default() };
    let due = match (image == IMAGE_BYTES, row_6(&numbers), index == 32) {
        (false, _, _) => 5,
        (true, true, _) => 6,
        (true, false, false) => 10,
        (true, false, true) => 0,
    };
    met.resets[due as usize] += 1;
    let mut sides = Sides::new(world);
    let answer = sides.reset(&numbers)?;
    if answer != (Answer { number: due, reason: 0, steps: 0 }) {
        return Err(vec![format!("{numbers:x?}: both answered {answer:?}, not {due}")]);
    }
    if due == 0 {
        return installed(&sides.theirs, &numbers);
    }
    Ok(())
}

fn installed(world: &World, numbers: &Numbers) -> Checked {
    let machine = world.machine();
    let right = machine.disks.iter().enumerate().all(|(number, disk)| {
        let status = u32::from(numbers.disks >> number & 1 != 0);
        *disk == Disk { status, data1: numbers.geometry[number] as u32, ..Disk::default() }
    });
    let maps = (u64::from(machine.disks_installed), machine.disks_pending);
    if right && maps == (numbers.disks, 0) {
        Ok(())
    } else {
        Err(vec![format!("{numbers:x?} did not make these disks: {:?}", machine.disks)])
    }
}
