//! The rules of disks in an image, by the readings of request L4 and not taken from
//! the reference.

use crate::disk::{self, BUSY, LINE, READ, RESET, SEEK, WRITE};
use crate::look::RAM;
use reference::{Disk, Machine};

pub type Rule = (&'static str, fn(&Machine, usize, usize) -> bool);

/// Each with whether disk `n` of a machine breaks it, with RAM of so many bytes.
#[rustfmt::skip]
pub const BROKEN: [Rule; 19] = [
    ("a map over 255", |m, _, _| m.disks_installed > 0xFF),
    ("pending but not installed", |m, _, _| m.disks_pending & !m.disks_installed != 0),
    ("IP[3] against the pending map", |m, _, _| (m.cause & LINE != 0) != (m.disks_pending != 0)),
    ("a disk that is not installed is not 0", |m, n, _| !there(m, n) && m.disks[n] != Disk::default()),
    ("STATUS not 1 to 7", |m, n, _| there(m, n) && !(1..=7).contains(&m.disks[n].status)),
    ("a cylinder not below their count, nor 0", |m, n, _| there(m, n) && m.disks[n].cylinder >= disk::cylinders(&m.disks[n]).max(1)),
    ("ticks left of a disk at rest", |m, n, _| idle(m, n) && m.disks[n].ticks_left != 0),
    ("words left of a disk at rest", |m, n, _| idle(m, n) && m.disks[n].words_left != 0),
    ("busy and pending", |m, n, _| busy(m, n) && m.disks_pending >> n & 1 != 0),
    ("busy, another code", |m, n, _| busy(m, n) && ![RESET, SEEK, READ, WRITE].contains(&disk::code(&m.disks[n]))),
    ("ticks left not 1 to the delay", |m, n, _| waits(m, n) && !(1..=m.printer_delay).contains(&m.disks[n].ticks_left)),
    ("words left beside ticks", |m, n, _| waits(m, n) && m.disks[n].words_left != 0),
    ("a seek to no cylinder", |m, n, _| busy(m, n) && disk::code(&m.disks[n]) == SEEK && disk::cylnum(&m.disks[n]) >= disk::cylinders(&m.disks[n])),
    ("words left not 1 to 1,024", |m, n, _| transfers(m, n) && !(1..=1_024).contains(&m.disks[n].words_left)),
    ("ticks left beside words", |m, n, _| transfers(m, n) && m.disks[n].ticks_left != 0),
    ("a transfer at no cylinder", |m, n, _| transfers(m, n) && m.disks[n].cylinder >= disk::cylinders(&m.disks[n])),
    ("a transfer at no head or sector", |m, n, _| transfers(m, n) && (disk::headnum(&m.disks[n]) >= disk::heads(&m.disks[n]) || disk::sectnum(&m.disks[n]) >= disk::sectors(&m.disks[n]))),
    ("DATA0 of a transfer no multiple of 4", |m, n, _| transfers(m, n) && m.disks[n].data0 % 4 != 0),
    ("a transfer outside RAM", |m, n, ram| transfers(m, n) && (m.disks[n].data0 < RAM || u64::from(m.disks[n].data0 - RAM) + 4_096 > ram as u64)),
];

fn there(machine: &Machine, number: usize) -> bool {
    machine.disks_installed >> number & 1 != 0
}

fn busy(machine: &Machine, number: usize) -> bool {
    there(machine, number) && machine.disks[number].status == BUSY
}

fn idle(machine: &Machine, number: usize) -> bool {
    there(machine, number) && machine.disks[number].status != BUSY
}

fn transfers(machine: &Machine, number: usize) -> bool {
    busy(machine, number) && disk::moves_words(&machine.disks[number])
}

fn waits(machine: &Machine, number: usize) -> bool {
    busy(machine, number) && [RESET, SEEK].contains(&disk::code(&machine.disks[number]))
}

/// Bit n is on where rule n is broken.
pub fn broken(machine: &Machine, ram: usize) -> u32 {
    let rules = BROKEN.iter().enumerate();
    let broken = rules.filter(|(_, (_, rule))| (0..8).any(|number| rule(machine, number, ram)));
    broken.map(|(place, _)| 1 << place).sum()
}

/// The machine without its disks, which keeps the rules where all else does.
pub fn without_disks(machine: &Machine) -> Machine {
    let mut bare = machine.clone();
    bare.disks = Default::default();
    (bare.disks_installed, bare.disks_pending) = (0, 0);
    bare.cause &= !LINE;
    bare
}
