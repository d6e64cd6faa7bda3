//! One random history: runs, take-backs, loads and new sessions, with questions
//! behind each.

use crate::dice::Dice;
use crate::faults::Fault;
use crate::met::Met;
use crate::session::Manner;
use crate::world::World;
use crate::{ask, moves};

fn ask(dice: &mut Dice, world: &mut World, fault: Option<Fault>, met: &mut Met) {
    for _ in 0..dice.between(1, 3) {
        ask::blame(dice, world, fault, met);
    }
    if dice.chance(3) {
        ask::before(dice, world, fault, met);
        ask::blame(dice, world, fault, met);
    }
}

pub fn live(dice: &mut Dice, fault: Option<Fault>, met: &mut Met) {
    let mut world = World::new(dice, met);
    let first = world.way + u64::from(dice.below(40));
    moves::run(&mut world, &format!("run {first}"), first, false);
    ask(dice, &mut world, fault, met);
    for _ in 0..dice.between(1, 4) {
        match dice.below(20) {
            0 => {
                let place = 4 * dice.below(world.past.ram().len() as u32 / 4 - 2) as usize;
                let length = dice.between(0, 8) as usize;
                world.load(place, &dice.bytes(length));
                met.loads += 1;
            }
            1 => {
                let manner = dice.pick(&[Manner::Terminal, Manner::Arguments]);
                world = world.reopen(manner);
                met.reopened += 1;
            }
            2..=6 => moves::any_back(dice, &mut world, met),
            _ => moves::any_run(dice, &mut world, met),
        }
        ask(dice, &mut world, fault, met);
    }
}
