//! Take-back from the records of the journal.

use crate::answer::{Answer, NO_REASON};
use crate::give_back::{give_back_disks, give_back_paper, give_back_ram, places_fit, Lengths};
use crate::image::{decode, encode};
use crate::index::forget_step;
use crate::layout::*;
use crate::machine::Machine;
use crate::rules::{keeps_rules, machine_keeps_rules};
use crate::sizes::{disks_fit, index_fits, journal_fits, paper_fits, ram_fits, record_slots};
use crate::undo::undo;

/// Undoes the newest steps from their records.
pub fn take_back(
    image: &mut [u8],
    ram: &mut [u8],
    paper: &mut [u8],
    journal: &[u8],
    index: &mut [u8],
    mut disks: [&mut [u8]; 8],
    steps: u64,
) -> Answer {
    let lengths = Lengths::of(ram, paper, journal, disks.each_ref().map(|disk| disk.len()));
    let refusal = take_back_refusal(image, &lengths, steps);
    if refusal != 0 {
        return Answer::refused(refusal);
    }
    let steps = steps as u32;
    let now = decode(image);
    // All records are judged before anything is written: the last may be bad.
    if !well_formed(&now, &lengths, journal, steps) {
        return Answer::refused(8);
    }
    if !index_fits(index.len(), ram.len()) {
        return Answer::refused(10);
    }
    if !disks_fit(&now, lengths.disks) {
        return Answer::refused(13);
    }
    let mut machine = now.clone();
    for record in newest_first(journal, now.next_slot, steps) {
        forget_step(index, record, machine.clock, machine.on_hand - 1);
        undo(&mut machine, record, record_slots(journal.len()) as u32);
        give_back_ram(record, ram);
        give_back_paper(record, paper);
        give_back_disks(record, &machine, &mut disks);
    }
    encode(&machine, image);
    Answer::done(NO_REASON, steps)
}

/// Whether all records of the newest steps are well formed, each with the machine
/// that the newer ones give back.
pub(crate) fn well_formed(now: &Machine, lengths: &Lengths, journal: &[u8], steps: u32) -> bool {
    let slots = record_slots(journal.len());
    let mut machine = now.clone();
    newest_first(journal, now.next_slot, steps).all(|record| {
        if !keeps_layout(record) {
            return false;
        }
        undo(&mut machine, record, slots as u32);
        places_fit(record, &machine, lengths)
            && machine_keeps_rules(&machine, lengths.ram, lengths.paper, slots)
    })
}

/// Rows 1 to 7, as far as take-back is given what they look at.
pub(crate) fn take_back_refusal(image: &[u8], lengths: &Lengths, steps: u64) -> u8 {
    if !ram_fits(lengths.ram) {
        1
    } else if !paper_fits(lengths.paper) {
        3
    } else if !journal_fits(lengths.journal) {
        4
    } else if !keeps_rules(image, lengths.ram, lengths.paper, lengths.journal) {
        5
    } else if steps > u64::from(decode(image).on_hand) {
        7
    } else {
        0
    }
}

/// The slots just before `next_slot`, going down and round the journal's start.
pub(crate) fn newest_first(
    journal: &[u8],
    next_slot: u32,
    steps: u32,
) -> impl Iterator<Item = &Record> {
    let (before, from) = journal.split_at(next_slot as usize * RECORD_BYTES);
    let slots =
        before.chunks_exact(RECORD_BYTES).rev().chain(from.chunks_exact(RECORD_BYTES).rev());
    slots.take(steps as usize).map(|slot| slot.try_into().expect("a slot is 512 bytes"))
}
