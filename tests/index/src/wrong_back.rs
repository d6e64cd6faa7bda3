//! The reference's take-back, with the index kept beside it, with or without a
//! fault.

use crate::faults::Fault::{self, *};
use crate::keep::{self, Kept};
use crate::lent::{empty_index, Slices};
use crate::record::{at, newest, set, word, DISTANCE, KIND, RAM_WORD};
use reference::layout::RECORD_BYTES;
use reference::{decode, Answer};

/// The journal as a take-back sees it that judges distances in another way.
fn mended(fault: Fault, journal: &[u8]) -> Vec<u8> {
    let mut journal = journal.to_vec();
    for record in journal.chunks_exact_mut(RECORD_BYTES).filter(|it| word(it, KIND) == RAM_WORD) {
        let distance = word(record, DISTANCE);
        match fault {
            BackTakesAnyDistance => set(record, DISTANCE, distance & 0xFFFF),
            BackRefusesDistances if distance != 0 => set(record, DISTANCE, 1 << 16),
            _ => {}
        }
    }
    journal
}

fn keep_index(
    fault: Fault,
    image: &[u8],
    journal: &[u8],
    index: &mut [u8],
    steps: u32,
    met: &mut Kept,
) {
    let before = decode(image);
    let slots = newest(before.next_slot, journal.len() / RECORD_BYTES, steps as usize);
    let mut order: Vec<(u32, usize)> = (0..).zip(slots).collect();
    match fault {
        OnlyTheNewestTakenBack => order.truncate(1),
        OldestTakenBackFirst => order.reverse(),
        BackClearsTheIndex => index.fill(0),
        _ => {}
    }
    for (newer, slot) in order {
        let clock = match fault {
            ClockOfTheNewestForAll => before.clock,
            _ => before.clock.wrapping_sub(newer.into()),
        };
        keep::back(fault, index, at(journal, slot), clock, before.on_hand - newer - 1, met);
    }
}

/// The number where a fault judges the index at another place of the order.
fn number(fault: Fault, number: u8, wrong_index: bool) -> u8 {
    let moved = match fault {
        BackJudgesTheIndexFirst => true,
        BackJudgesTheIndexBeforeTheSteps => number == 7 || number == 8,
        BackJudgesTheIndexBeforeTheRecords => number == 8,
        _ => false,
    };
    if moved && wrong_index {
        10
    } else {
        number
    }
}

pub fn take_back(fault: Fault, lent: Slices, steps: u64, met: &mut Kept) -> Answer {
    let Slices { image, ram, paper, journal, index, .. } = lent;
    let before = image.to_vec();
    let journal = mended(fault, journal);
    let due = empty_index(ram.len()).len();
    let mut given_up = index.to_vec();
    let goes_on = match fault {
        BackJudgesNoIndex | BackGoesBackWhereItRefuses => true,
        BackTakesALongerIndex => index.len() > due,
        _ => false,
    };
    if goes_on {
        given_up.resize(due, 0);
    }
    let answer = reference::diskless::take_back(image, ram, paper, &journal, &mut given_up, steps);
    let wrong = index.len() != due;
    if answer.number != 0 {
        return Answer::refused(number(fault, answer.number, wrong));
    }
    if wrong && fault == BackGoesBackWhereItRefuses {
        return Answer::refused(10);
    }
    if !wrong {
        keep_index(fault, &before, &journal, index, answer.steps, met);
    }
    answer
}
