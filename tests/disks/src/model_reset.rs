//! A reset that is wrong on purpose: the reference's, with one fault.

use crate::faults::Fault::{self, *};
use crate::world::{Numbers, World};
use reference::Answer;

/// The numbers as a careless reset takes them.
fn taken(fault: Fault, numbers: &Numbers) -> Numbers {
    let mut taken = *numbers;
    match fault {
        ResetTakesWideMaps => taken.disks &= 0xFF,
        ResetTakesWideGeometries => taken.geometry = taken.geometry.map(|it| it & 0xFFFF_FFFF),
        ResetTakesGeometriesOfNone => {
            for number in (0..8).filter(|number| numbers.disks >> number & 1 == 0) {
                taken.geometry[number] = 0;
            }
        }
        ResetRefusesCountsOfNull if fits(numbers) => {
            let whole = |it: u64| it >> 16 != 0 && it >> 8 & 0xFF != 0 && it & 0xFF != 0;
            if (0..8).any(|k| numbers.disks >> k & 1 != 0 && !whole(numbers.geometry[k])) {
                taken.time_scale = 0;
            }
        }
        _ => {}
    }
    taken
}

fn fits(numbers: &Numbers) -> bool {
    numbers.disks <= 0xFF
}

pub fn reset(fault: Fault, world: &mut World, numbers: &Numbers) -> Answer {
    let answer = world.reset(&taken(fault, numbers));
    if answer.number != 0 {
        return answer;
    }
    let mut machine = world.machine();
    for disk in &mut machine.disks {
        match fault {
            ResetForgetsGeometries => disk.data1 = 0,
            ResetLeavesDisksOff => disk.status = 0,
            ResetTurnsGeometries => disk.data1 = disk.data1.swap_bytes(),
            _ => {}
        }
    }
    if fault == ResetPends {
        machine.disks_pending = machine.disks_installed;
    }
    world.set_machine(&machine);
    answer
}
