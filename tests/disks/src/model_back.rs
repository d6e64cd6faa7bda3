//! A take-back: the disks' part is the tests' own, with a fault; the rest is the
//! reference's, on a machine without disks.

use crate::disk::{self, BUSY, LINE};
use crate::faults::Fault::{self, *};
use crate::judge;
use crate::model_command::{field, COMMAND};
use crate::model_index::{self, places};
use crate::model_record::how;
use crate::model_rows::{refusal, Asked};
use crate::record::*;
use crate::rules::{broken, without_disks};
use crate::world::{set_word, World};
use reference::{Answer, Machine, IMAGE_BYTES};

pub fn take_back(fault: Fault, world: &mut World, steps: u64) -> Answer {
    let mut back = world.clone();
    let others = |machine: &Machine| {
        let on_hand = steps <= u64::from(machine.on_hand);
        vec![(7, on_hand), (8, !on_hand || undone(fault, world, steps as u32).is_some())]
    };
    let asked = Asked { roms: false, index: true, others: &others };
    let machine = match refusal(fault, world, &asked) {
        Ok(machine) => machine,
        Err(number) => return Answer::refused(number),
    };
    for slot in newest(machine.next_slot, world.slots().max(1), steps as usize) {
        let record = world.record(slot).to_vec();
        one(fault, &mut back, &record).expect("judged above");
    }
    *world = back;
    Answer::done(0, steps as u32)
}

/// Whether all records are well formed, by taking them back from a copy.
pub fn undone(fault: Fault, world: &World, steps: u32) -> Option<World> {
    let machine = world.machine();
    let mut back = world.clone();
    // The index has no part in it, and may have any length.
    back.index = vec![0; world.ram.len() / 4_096 * 16];
    for slot in newest(machine.next_slot, world.slots().max(1), steps as usize) {
        one(fault, &mut back, world.record(slot))?;
    }
    Some(back)
}

/// The record as a machine without disks would have written it.
fn bare(record: &[u8]) -> Vec<u8> {
    let mut bare = record.to_vec();
    set(&mut bare, CAUSE, word(record, CAUSE) & !LINE);
    if word(record, KIND) == DISK_WORD {
        bare[4 * KIND..4 * DISKS_PENDING].fill(0);
    }
    bare[4 * DISKS_PENDING..4 * UNUSED].fill(0);
    bare
}

/// Takes one step back; None where its record is not well formed.
fn one(fault: Fault, world: &mut World, record: &[u8]) -> Option<()> {
    if !judge::keeps_layout(fault, record) {
        return None;
    }
    let machine = world.machine();
    let slots = world.slots() as u32;
    let rest = rest_back(fault, world, &machine, &bare(record))?;
    let mut back = disks_back(fault, &machine, rest, record);
    (back.on_hand, back.next_slot) = (machine.on_hand - 1, (machine.next_slot + slots - 1) % slots);
    if !judge::places_fit(fault, record, &back, world) || broken(&back, world.ram.len()) != 0 {
        return None;
    }
    model_index::forget(fault, &mut world.index, record, machine.clock, machine.on_hand - 1);
    bytes_back(fault, &back, record, world);
    world.set_machine(&back);
    Some(())
}

/// All but disks and RAM.
fn rest_back(fault: Fault, world: &mut World, machine: &Machine, bare: &[u8]) -> Option<Machine> {
    let mut rest = without_disks(machine);
    (rest.on_hand, rest.next_slot) = (1, 0);
    let mut part = World {
        image: vec![0; IMAGE_BYTES],
        ram: world.ram.clone(),
        paper: world.paper.clone(),
        journal: bare.to_vec(),
        index: vec![0; world.ram.len() / 4_096 * 16],
        ..World::default()
    };
    if fault == WordsThatHoldNothingMayHold {
        part.journal[4 * UNUSED..].fill(0);
    }
    part.set_machine(&rest);
    if part.take_back(1).number != 0 {
        return None;
    }
    world.paper = part.paper.clone();
    Some(part.machine())
}

fn disks_back(fault: Fault, now: &Machine, rest: Machine, record: &[u8]) -> Machine {
    let mut back = rest;
    (back.disks, back.disks_installed) = (now.disks, now.disks_installed);
    back.disks_pending = match fault {
        BackKeepsPending => now.disks_pending,
        _ => word(record, DISKS_PENDING),
    };
    back.cause |= match fault {
        BackKeepsPending => now.cause & LINE,
        _ => word(record, CAUSE) & LINE,
    };
    if word(record, KIND) == DISK_WORD && fault != BackKeepsRegisters {
        if let Some((number, field)) = field(word(record, WHICH)) {
            register_back(&mut back.disks[number], field, record);
        }
    }
    for number in (0..8).filter(|number| how(record, *number) != 0) {
        let disk = &mut back.disks[number];
        let (first, left) =
            (word(record, disk_at(number, HOW)), word(record, disk_at(number, LEFT)));
        if fault != BackKeepsStatus {
            disk.status = BUSY;
        }
        if fault != BackKeepsWhatIsLeft {
            (disk.ticks_left, disk.words_left) = (left & 0xFFFF, left >> 16);
        }
        if fault != BackKeepsCylinders {
            disk.cylinder = first >> 16;
        }
    }
    back
}

/// The machine with the disks that a record gives back, all else as it is.
pub fn disks_given_back(now: &Machine, record: &[u8]) -> Machine {
    disks_back(Fault::NotWrong, now, without_disks(now), record)
}

fn disk_at(number: usize, field: usize) -> usize {
    crate::record::disk(number, field)
}

fn register_back(disk: &mut reference::Disk, field: u32, record: &[u8]) {
    let old = word(record, OLD);
    if field == COMMAND {
        disk.command = old;
    } else {
        disk.data0 = old;
    }
    disk.status = word(record, OLD_STATUS);
    (disk.ticks_left, disk.words_left) = (0, 0);
}

/// The store's word, then those of disks 7 to 0.
fn bytes_back(fault: Fault, back: &Machine, record: &[u8], world: &mut World) {
    let mut places = places(record);
    match fault {
        BackGoesUpward => places.reverse(),
        BackPutsTheStoreLast => places.sort_by_key(|place| place.disk.is_none()),
        BackKeepsWhatWasRead => places.retain(|place| place.disk.is_none()),
        _ => {}
    }
    let end = world.ram.len();
    for place in places.iter().filter(|place| place.at + 4 <= end) {
        set_word(&mut world.ram, place.at, place.old);
    }
    let wrote = (0..8).filter(|number| how(record, *number) == 3);
    for number in wrote.filter(|_| fault != BackKeepsWhatWasWritten) {
        let at = disk::on_disk(fault, &back.disks[number]) as usize;
        let bytes = word(record, disk_at(number, BYTES));
        if let Some(four) = world.disks[number].get_mut(at..at + 4) {
            four.copy_from_slice(&bytes.to_le_bytes());
        }
    }
}
