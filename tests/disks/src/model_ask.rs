//! The question who last wrote a word: the tests' own, with a fault.

use crate::faults::Fault::{self, *};
use crate::look::RAM;
use crate::model_back::undone;
use crate::model_index::places;
use crate::model_rows::{refusal, Asked};
use crate::record::newest;
use crate::world::World;
use reference::{Answer, Machine};

pub fn ask(fault: Fault, world: &World, address: u64, answer: &mut [u8]) -> Answer {
    let place = address.wrapping_sub(RAM.into());
    let others = |machine: &Machine| {
        let fits = address >= RAM.into() && place < world.ram.len() as u64 && place % 4 == 0;
        let well_formed = undone(fault, world, machine.on_hand).is_some();
        vec![(8, well_formed), (11, fits), (12, answer.len() == 16)]
    };
    let asked = Asked { roms: false, index: true, others: &others };
    let machine = match refusal(fault, world, &asked) {
        Ok(machine) => machine,
        Err(number) => return Answer::refused(number),
    };
    let found = found(fault, world, &machine, place as usize);
    let (steps, clock, old, new) = found.unwrap_or((0, 0, 0, 0));
    answer[..8].copy_from_slice(&clock.to_be_bytes());
    answer[8..12].copy_from_slice(&old.to_be_bytes());
    answer[12..].copy_from_slice(&new.to_be_bytes());
    Answer::done(0, steps)
}

fn found(
    fault: Fault,
    world: &World,
    machine: &Machine,
    place: usize,
) -> Option<(u32, u64, u32, u32)> {
    let new = world.ram_word(place);
    let slots = newest(machine.next_slot, world.slots().max(1), machine.on_hand as usize);
    (1..).zip(slots).find_map(|(steps, slot)| {
        let all = places(world.record(slot));
        let mut here = all.iter().filter(|it| it.at == place);
        let it = match fault {
            AskForgetsReads => here.find(|it| it.disk.is_none())?,
            AskTakesTheFirstPlace => here.next()?,
            _ => here.last()?,
        };
        let clock = machine.clock.wrapping_sub(u64::from(steps) - 1);
        (it.old != new).then_some((steps, clock, it.old, new))
    })
}
