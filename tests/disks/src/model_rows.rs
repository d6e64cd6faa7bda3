//! Which number a call is refused with: the tests' own, with a fault.

use crate::disk;
use crate::faults::Fault::{self, *};
use crate::rules::{broken, without_disks};
use crate::world::World;
use reference::{decode, encode, keeps_rules, Machine, IMAGE_BYTES};

/// Rule `which` is not judged by a fault of this name.
fn not_judged(fault: Fault) -> u32 {
    match fault {
        RuleNotJudged(which) => 1 << which,
        _ => 0,
    }
}

/// The machine of an image that keeps the rules.
pub fn kept(fault: Fault, world: &World) -> Option<Machine> {
    if world.image.len() != IMAGE_BYTES {
        return None;
    }
    let machine = decode(&world.image);
    let mut bare = world.image.clone();
    encode(&without_disks(&machine), &mut bare);
    bare[..5].copy_from_slice(&world.image[..5]);
    let rest = keeps_rules(&bare, world.ram.len(), world.paper.len(), world.journal.len());
    let wrong = broken(&machine, world.ram.len()) & !not_judged(fault);
    (rest && wrong == 0).then_some(machine)
}

/// Rows 1, 3 and 4, and 2 where ROMs are lent.
fn lengths(world: &World, roms: bool) -> Vec<(u8, bool)> {
    let (ram, paper, journal) = (world.ram.len(), world.paper.len(), world.journal.len());
    let rom = |bytes: &[u8]| bytes.len() % 4 == 0 && (4..=65_536).contains(&bytes.len());
    let roms = !roms || rom(&world.execution) && rom(&world.bootstrap);
    vec![
        (1, ram % 4_096 == 0 && (1..=4_096).contains(&(ram / 4_096))),
        (2, roms),
        (3, paper % 8 == 0 && paper <= 65_536),
        (4, journal % 512 == 0 && journal <= 16_777_216),
    ]
}

fn disks_fit(fault: Fault, world: &World, machine: &Machine) -> bool {
    machine.disks.iter().zip(&world.disks).enumerate().all(|(number, (disk, bytes))| {
        let (lent, due) = (bytes.len() as u64, disk::bytes(disk));
        let there = machine.disks_installed >> number & 1 != 0;
        match fault {
            LongerDisksAreTaken => lent >= due,
            ShorterDisksAreTaken => lent <= due,
            AbsentDisksMayHaveBytes if !there => true,
            OnlyDiskNullIsMeasured if number > 0 => true,
            _ => lent == due,
        }
    })
}

/// What a call asks beside lengths, rules and disks, in any order.
pub struct Asked<'a> {
    pub roms: bool,
    pub index: bool,
    /// Judged only where the image keeps the rules.
    pub others: &'a dyn Fn(&Machine) -> Vec<(u8, bool)>,
}

/// The lowest number that applies; 0 and the machine where none does.
pub fn refusal(fault: Fault, world: &World, asked: &Asked) -> Result<Machine, u8> {
    let mut rows = lengths(world, asked.roms);
    let early = rows.iter().find(|(_, right)| !right).map(|(number, _)| *number);
    if let Some(number) = early {
        return Err(number);
    }
    let machine = match kept(fault, world) {
        Some(machine) => machine,
        None => return Err(if fault == DisksAreMeasuredBeforeRules { measured(world) } else { 5 }),
    };
    rows = (asked.others)(&machine);
    if asked.index {
        rows.push((10, world.index.len() == world.ram.len() / 4_096 * 16));
    }
    let disks = disks_fit(fault, world, &machine);
    rows.push((if fault == DisksAreMeasuredFirst { 6 } else { 13 }, disks));
    let lowest = rows.iter().filter(|(_, right)| !right).map(|(number, _)| *number).min();
    match lowest {
        None => Ok(machine),
        Some(_) if fault == DisksAreMeasuredFirst && !disks => Err(13),
        Some(number) => Err(number),
    }
}

/// 13 where the lengths do not fit whatever the image says of them, else 5.
fn measured(world: &World) -> u8 {
    if world.image.len() != IMAGE_BYTES {
        return 5;
    }
    let fits = disks_fit(NotWrong, world, &decode(&world.image));
    if fits {
        5
    } else {
        13
    }
}
