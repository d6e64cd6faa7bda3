//! A conversion that is wrong on purpose: the reference's, with one fault.

use crate::faults::Fault::{self, *};
use crate::fields::*;
use reference::{decode, encode, Answer, Machine};

const BD: u32 = 1 << 31;

fn word(image: &[u8], place: usize) -> u32 {
    let four = &image[FIRST_WORD + 4 * place..][..4];
    u32::from_be_bytes([four[0], four[1], four[2], four[3]])
}

fn put(image: &mut [u8], place: usize, value: u32) {
    image[FIRST_WORD + 4 * place..][..4].copy_from_slice(&value.to_be_bytes());
}

fn paper_count(printer: usize) -> usize {
    PRINTERS + printer * PRINTER_WORDS + PRINTER_COUNT
}

/// An old image in which what this fault does not judge is right.
fn mended(fault: Fault, old: &[u8]) -> Vec<u8> {
    let mut old = old.to_vec();
    if fault == ConvertTakesTheFirstVersion && old.len() == OLD_IMAGE_BYTES - 8 {
        old.resize(OLD_IMAGE_BYTES, 0);
        old[..FIRST_WORD].copy_from_slice(&head(OLD_LENGTH_WORD, OLD_VERSION));
    }
    if fault == ConvertTakesLongerOldImages && old.len() > OLD_IMAGE_BYTES {
        old.truncate(OLD_IMAGE_BYTES);
    }
    if old.len() != OLD_IMAGE_BYTES {
        return old;
    }
    let right = head(OLD_LENGTH_WORD, OLD_VERSION);
    match fault {
        ConvertTakesAnyVersion => old[FIRST_WORD - 1] = OLD_VERSION,
        ConvertTakesAnyLengthWord => old[..4].copy_from_slice(&right[..4]),
        ConvertJudgesNoOnHand => put(&mut old, ON_HAND, 0),
        ConvertJudgesNoNextSlot => put(&mut old, NEXT_SLOT, 0),
        ConvertJudgesNoSlotFlag => {
            put(&mut old, SLOT_FLAG, 0);
            put(&mut old, BRANCH_ADDRESS, 0);
        }
        ConvertJudgesNoPaperCount => {
            for number in 0..8 {
                put(&mut old, paper_count(number), 0);
            }
        }
        _ => {}
    }
    old
}

fn spoil(fault: Fault, old: &[u8], machine: &mut Machine) {
    match fault {
        ConvertKeepsOnHand => machine.on_hand = word(old, ON_HAND),
        ConvertKeepsNextSlot => machine.next_slot = word(old, NEXT_SLOT),
        ConvertHalvesNextSlot => machine.next_slot = word(old, NEXT_SLOT) / 2,
        ConvertForgetsTheSlot => (machine.slot_flag, machine.branch_address) = (0, 0),
        ConvertInstallsADisk => machine.disks_installed = 1,
        ConvertSetsTheDisksPending => machine.disks_pending = 1,
        ConvertSetsTheFlag => machine.slot_flag = 1,
        ConvertSetsTheAddress => machine.branch_address = machine.pc.wrapping_sub(4),
        ConvertClearsBd => machine.cause &= !BD,
        ConvertForgetsEpc => machine.epc = 0,
        ConvertJudgesNoSlotFlag => {
            machine.slot_flag = word(old, SLOT_FLAG);
            machine.branch_address = word(old, BRANCH_ADDRESS);
        }
        ConvertJudgesNoPaperCount => {
            for (number, printer) in machine.printers.iter_mut().enumerate() {
                printer.paper_count = word(old, paper_count(number));
            }
        }
        _ => {}
    }
}

/// The head and the end as a careless conversion leaves them.
fn spoil_bytes(fault: Fault, before: &[u8], image: &mut [u8]) {
    let end = FIRST_WORD + 4 * DISKS_INSTALLED;
    match fault {
        ConvertLeavesTheEnd => image[end..].copy_from_slice(&before[end..]),
        ConvertLeavesTheLengthWord => {
            image[..4].copy_from_slice(&head(OLD_LENGTH_WORD, OLD_VERSION)[..4]);
        }
        ConvertLeavesTheVersion => image[FIRST_WORD - 1] = OLD_VERSION,
        _ => {}
    }
}

fn journal_fits(length: usize) -> bool {
    length % OLD_RECORD_BYTES == 0 && length <= 16_777_216
}

/// With slots of the new length; the old image has the old one.
fn fits_in_new_slots(old: &[u8], journal: usize) -> bool {
    let slots = (journal / RECORD_BYTES) as u32;
    let next_slot = word(old, NEXT_SLOT);
    word(old, ON_HAND) <= slots && (next_slot == 0 || next_slot < slots)
}

/// The number, where this fault judges the rows in another way.
fn other_order(fault: Fault, number: u8, old: &[u8], image: usize, journal: usize) -> u8 {
    let new_slots = journal % RECORD_BYTES == 0;
    let counted = number != 0 || fits_in_new_slots(old, journal);
    let journal = journal_fits(journal);
    let image_bad =
        image != IMAGE_BYTES || old.get(..FIRST_WORD) != Some(&head(OLD_LENGTH_WORD, OLD_VERSION));
    match fault {
        ConvertJudgesTheImageFirst if image_bad => 5,
        ConvertJudgesTheJournalFirst if !journal => 4,
        ConvertJudgesNoPaper if number == 3 && !journal => 4,
        ConvertJudgesNoPaper if number == 3 => u8::from(image_bad) * 5,
        ConvertJudgesNoJournal if number == 4 => u8::from(image_bad) * 5,
        ConvertJudgesNoRule if number == 5 && !image_bad => 0,
        ConvertJudgesInNewSlots if number != 3 && !new_slots => 4,
        ConvertCountsInNewSlots if !counted => 5,
        ConvertRefusesAll => 5,
        _ => number,
    }
}

pub fn convert(fault: Fault, old: &[u8], image: &mut [u8], paper: &[u8], journal: &[u8]) -> Answer {
    let before = image.to_vec();
    let length = match fault {
        ConvertTakesLongerNewImages => image.len().min(IMAGE_BYTES),
        _ => image.len(),
    };
    let part = &mut image[..length];
    let answer = reference::convert(&mended(fault, old), part, paper, journal);
    let number = other_order(fault, answer.number, old, part.len(), journal.len());
    if number != 0 {
        image.copy_from_slice(&before);
        if fault == ConvertWritesWhereItRefuses {
            image.iter_mut().take(1).for_each(|byte| *byte ^= 1);
        }
        return Answer::refused(number);
    }
    if answer.number == 0 {
        let mut machine = decode(part);
        spoil(fault, old, &mut machine);
        encode(&machine, part);
        spoil_bytes(fault, &before, part);
    }
    match fault {
        ConvertTellsSteps => Answer::done(0, word(old, ON_HAND)),
        ConvertTellsAReason => Answer::done(1, 0),
        _ => Answer::done(0, 0),
    }
}
