//! One run whose journal is damaged, a record or two: judged here, by the reference
//! and by the archive; taken back, asked, and run on over what is damaged.

use crate::damage::{Spot, DAMAGES};
use crate::dice::Dice;
use crate::fault_now::fault;
use crate::faults::Fault;
use crate::judge::{hows_match, wrong_places, WRONGS};
use crate::look::RAM;
use crate::met::Met;
use crate::model_back::{disks_given_back, take_back, undone};
use crate::record::{newest, RECORD_BYTES};
use crate::runs::budget;
use crate::scene::scene;
use crate::sides::{Checked, Sides};
use crate::world::World;

pub fn one(dice: &mut Dice, met: &mut Met) -> Checked {
    let slots = dice.pick(&[1, 2, 3, 17]);
    let mut world = loop {
        let mut world = scene(dice, slots);
        world.run(budget(dice).min(40), 0);
        if world.machine().on_hand > 0 {
            break world;
        }
    };
    let on_hand = world.machine().on_hand;
    let steps = if dice.chance(2) { on_hand } else { dice.between(1, on_hand) };
    for _ in 0..if dice.chance(6) { 2 } else { 1 } {
        let age = if dice.chance(2) { steps } else { dice.between(1, steps) };
        let which = dice.below(DAMAGES.len() as u32) as usize;
        damage(dice, &mut world, age, which, met);
    }
    other_lengths(dice, &mut world);
    let due = take_back(Fault::NotWrong, &mut world.clone(), steps.into());
    let mut sides = Sides::new(world);
    let place = 4 * dice.below(sides.theirs.ram.len() as u32 / 4);
    sides.last_write(u64::from(RAM + dice.pick(&[place, 0x40, 0x800, 0xFFC])), &[7; 16])?;
    if dice.chance(6) {
        // Over the damaged ones, which drop off one by one.
        sides.run(budget(dice).min(40), 0)?;
        return Ok(());
    }
    let answer = sides.take_back(steps.into())?;
    if answer != due {
        return Err(vec![format!("both answered {answer:?}, by these tests {due:?}")]);
    }
    met.judged[due.number as usize] += 1;
    Ok(())
}

fn damage(dice: &mut Dice, world: &mut World, age: u32, which: usize, met: &mut Met) {
    let machine = world.machine();
    let slots = world.slots();
    let slot = newest(machine.next_slot, slots, age as usize).last().expect("on hand");
    let mut record = world.record(slot).to_vec();
    let other = world.record(dice.below(slots as u32) as usize).to_vec();
    let (ram, delay) = (world.ram.len() as u32, machine.printer_delay);
    DAMAGES[which].1(&mut Spot { record: &mut record, other: &other, ram, delay }, dice);
    world.journal[RECORD_BYTES * slot..][..RECORD_BYTES].copy_from_slice(&record);
    if fault().is_some() {
        return;
    }
    met.damages[which] += 1;
    let wrong: Vec<usize> = (0..WRONGS.len()).filter(|place| WRONGS[*place].2(&record)).collect();
    if let [only] = wrong[..] {
        met.clauses[only] += 1;
    }
    // With the machine that the newer ones give back, where they do.
    if let (true, Some(before)) = (wrong.is_empty(), undone(Fault::NotWrong, world, age - 1)) {
        let back = disks_given_back(&before.machine(), &record);
        let places = wrong_places(&record, &back, &before);
        for (count, wrong) in met.places.iter_mut().zip(places) {
            *count += u64::from(wrong);
        }
        met.places[3] += u64::from(places == [false; 3] && !hows_match(&record, &back));
    }
}

/// Now and then RAM or a disk is lent with another length than at the run.
fn other_lengths(dice: &mut Dice, world: &mut World) {
    match dice.below(16) {
        0 => {
            let frames = dice.between(1, 3) as usize;
            world.ram.resize(4_096 * frames, 0x5A);
            world.index.resize(16 * frames, 0);
        }
        1 => {
            let number = dice.below(8) as usize;
            let length = dice.pick(&[0, 7, 4_096, 8_192, 5_000]);
            world.disks[number].resize(length, 0x5A);
        }
        _ => {}
    }
}
