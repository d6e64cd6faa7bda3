//! One step undone in the lent buffers, and whether its places lie in them.

use crate::layout::*;
use crate::machine::Machine;
use crate::places::places;

/// Of the buffers whose lengths rules and places are judged by.
pub struct Lengths {
    pub ram: usize,
    pub paper: usize,
    pub journal: usize,
    pub disks: [usize; 8],
}

impl Lengths {
    pub fn of(ram: &[u8], paper: &[u8], journal: &[u8], disks: [usize; 8]) -> Lengths {
        Lengths { ram: ram.len(), paper: paper.len(), journal: journal.len(), disks }
    }
}

/// The place in paper of printer k's byte: its count before the step, from the
/// start of its eighth of the paper that is lent now. In a record that no step
/// has written it may be the next eighth's first place; it is judged by the
/// paper's length alone.
fn paper_place(record: &Record, number: usize, paper_len: usize) -> u64 {
    let count = word(record, PRINTERS + number * PRINTER_WORDS + 4);
    (number * (paper_len / 8)) as u64 + u64::from(count)
}

fn printed(record: &Record) -> impl DoubleEndedIterator<Item = usize> {
    let map = word(record, PRINTED);
    (0..8).filter(move |number| map >> number & 1 != 0)
}

fn wrote(record: &Record) -> impl Iterator<Item = usize> + '_ {
    (0..8).filter(|number| disk_part(record, *number).how == WROTE_A_WORD)
}

/// With the machine that the record gives back, whose disks say where on them they
/// wrote. RAM's length and a RAM place are both multiples of 4, so that a word
/// whose first byte is inside is inside whole; a disk's buffer may still have any
/// length here.
pub fn places_fit(record: &Record, machine: &Machine, lengths: &Lengths) -> bool {
    let paper = lengths.paper;
    places(record).all(|place| (place.at as usize) < lengths.ram)
        && printed(record).all(|number| paper_place(record, number, paper) < paper as u64)
        && wrote(record)
            .all(|number| machine.disks[number].place_on_disk() + 4 <= lengths.disks[number] as u64)
}

pub fn give_back_ram(record: &Record, ram: &mut [u8]) {
    for place in places(record) {
        ram[place.at as usize..][..4].copy_from_slice(&place.old.to_le_bytes());
    }
}

/// From printer 7 down to 0, as a tick goes from 0 up. It shows only in a record
/// that no step has written, where a count at its eighth's end names the next
/// printer's place: there the lower printer's byte stands.
pub fn give_back_paper(record: &Record, paper: &mut [u8]) {
    for number in printed(record).rev() {
        let place = paper_place(record, number, paper.len()) as usize;
        paper[place] = record[PAPER_BYTES + number];
    }
}

/// With the machine that the record gives back.
pub fn give_back_disks(record: &Record, machine: &Machine, disks: &mut [&mut [u8]; 8]) {
    for number in wrote(record) {
        let place = machine.disks[number].place_on_disk() as usize;
        let bytes = disk_part(record, number).bytes.to_le_bytes();
        disks[number][place..place + 4].copy_from_slice(&bytes);
    }
}
