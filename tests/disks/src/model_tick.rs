//! Part 2 of a step, as far as it is the disks': the tests' own, with a fault.

use crate::disk::{self, BUSY, LINE, READY, RESET, SEEK};
use crate::faults::Fault::{self, *};
use crate::world::{set_word, word, World};
use reference::{Disk, Machine};

/// A word that a disk moves in this step, with what is in its two places before.
#[derive(Clone, Copy)]
pub struct Move {
    pub number: usize,
    pub reads: bool,
    pub in_ram: usize,
    pub on_disk: usize,
    pub ram_before: u32,
    pub disk_before: u32,
}

impl Move {
    fn of(fault: Fault, number: usize, disk: &Disk, world: &World) -> Option<Move> {
        let (in_ram, on_disk) = (disk::in_ram(disk), disk::on_disk(fault, disk) as usize);
        // A fault may lead behind the disk's end, or out of RAM.
        let bytes = world.disks[number].get(on_disk..on_disk + 4)?;
        world.ram.get(in_ram..in_ram + 4)?;
        Some(Move {
            number,
            reads: disk::code(disk) == disk::READ,
            in_ram,
            on_disk,
            ram_before: world.ram_word(in_ram),
            disk_before: word(bytes, 0),
        })
    }

    /// What it leaves behind.
    pub fn undo(&self, world: &mut World) {
        if self.reads {
            set_word(&mut world.ram, self.in_ram, self.ram_before);
        } else {
            set_word(&mut world.disks[self.number], self.on_disk, self.disk_before);
        }
    }
}

pub fn moves(fault: Fault, machine: &Machine, world: &World) -> Vec<Move> {
    let disks = machine.disks.iter().enumerate().filter(|(_, disk)| disk::moves_words(disk));
    disks.filter_map(|(number, disk)| Move::of(fault, number, disk, world)).collect()
}

/// In the order of their numbers.
pub fn move_words(fault: Fault, moves: &[Move], world: &mut World) {
    let mut moves = moves.to_vec();
    match fault {
        OrderReversed => moves.reverse(),
        OnlyTheLowestMoves => moves.truncate(1),
        WritesComeFirst => moves.sort_by_key(|it| it.reads),
        ReadsComeFirst => moves.sort_by_key(|it| !it.reads),
        _ => {}
    }
    for it in moves {
        if it.reads {
            let turned = fault == BytesTurned;
            let moved = if turned { it.disk_before.swap_bytes() } else { it.disk_before };
            set_word(&mut world.ram, it.in_ram, moved);
        } else {
            let old = fault == WritesTakeTheWordBefore;
            let moved = if old { it.ram_before } else { world.ram_word(it.in_ram) };
            set_word(&mut world.disks[it.number], it.on_disk, moved);
        }
    }
}

/// The disks' own words, and line 3.
pub fn tick(fault: Fault, machine: &mut Machine) {
    for number in 0..8 {
        let disk = &mut machine.disks[number];
        if disk.status != BUSY {
            continue;
        }
        let transfers = disk::moves_words(disk);
        if transfers && fault == Data0MovesOn {
            disk.data0 += 4;
        }
        let left = if transfers { &mut disk.words_left } else { &mut disk.ticks_left };
        *left = left.saturating_sub(1);
        let early = fault == TransferEndsEarly && transfers && *left == 1;
        if *left == 0 || early {
            *left = 0;
            finish(fault, machine, number);
        }
    }
}

fn finish(fault: Fault, machine: &mut Machine, number: usize) {
    let disk = &mut machine.disks[number];
    let (code, cylnum) = (disk::code(disk), disk::cylnum(disk));
    disk.status = READY;
    match code {
        RESET if fault != ResetKeepsTheCylinder => disk.cylinder = 0,
        SEEK if fault != SeekKeepsTheCylinder => disk.cylinder = cylnum,
        _ => {}
    }
    let silent = match fault {
        SeekEndsSilently => code == SEEK,
        ResetEndsSilently => code == RESET,
        TransferEndsSilently => code > SEEK,
        _ => false,
    };
    if !silent {
        machine.disks_pending |= 1 << number;
        machine.cause |= LINE;
    }
}
