//! Random runs from the middle of transfers: the archive's answer and every byte
//! beside the reference's.

use crate::dice::Dice;
use crate::fault_now::fault;
use crate::kinds::Sight;
use crate::look::look;
use crate::met::Met;
use crate::record::RECORD_BYTES;
use crate::scene::scene;
use crate::sides::{Checked, Sides};
use crate::world::World;
use reference::{no_disks, Answer, Machine, Memory, EXCEPTION, TWO_MATCHES};

pub fn budget(dice: &mut Dice) -> u64 {
    match dice.below(150) {
        0 => dice.between(900, 1_100).into(),
        1..=20 => 1,
        _ => dice.below(30).into(),
    }
}

pub fn one(dice: &mut Dice, met: &mut Met) -> Checked {
    let slots = dice.pick(&[0, 1, 2, 3, 17]);
    let world = scene(dice, slots);
    let (budget, stop) = (budget(dice), dice.pick(&[0, 0, 1, 1 << 40]));
    let mut sides = Sides::new(world.clone());
    let answer = sides.run(budget, stop)?;
    if answer.number != 0 {
        return Err(vec![format!("the scene breaks a rule: {answer:?}")]);
    }
    if fault().is_none() {
        met.ran(answer, &world.machine());
        watch(world, answer, met);
    }
    Ok(())
}

fn looked_at(world: &mut World, machine: &Machine) -> crate::look::Look {
    let memory = Memory {
        execution_rom: &world.execution,
        bootstrap_rom: &world.bootstrap,
        ram: &mut world.ram,
        paper: &mut world.paper,
        disks: no_disks(),
    };
    look(machine, &memory)
}

/// The run again, step by step.
fn watch(mut world: World, answer: Answer, met: &mut Met) {
    world.journal = vec![0; RECORD_BYTES];
    let mut machine = world.machine();
    (machine.on_hand, machine.next_slot) = (0, 0);
    world.set_machine(&machine);
    for _ in 0..answer.steps {
        let before = world.machine();
        let look = looked_at(&mut world, &before);
        let entered = world.run(1, 1).reason == EXCEPTION;
        let after = world.machine();
        let (before, after, record) = (&before, &after, world.record(0));
        met.see(&Sight { before, after, record, world: &world, look: &look, entered });
    }
    if answer.reason == TWO_MATCHES {
        let machine = world.machine();
        let old = looked_at(&mut world, &machine).halt().is_some();
        met.halts[usize::from(old)] += 1;
    }
}
