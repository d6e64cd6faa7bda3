//! A run of single steps of the reference, with the index and the distances in
//! the records kept beside it, with or without a fault.

use crate::faults::Fault::{self, *};
use crate::keep::{self, Kept, Taken};
use crate::lent::{empty_index, Slices};
use crate::record::{at, set, word, DISTANCE, KIND, RAM_WORD, WHICH};
use crate::{entry, record};
use reference::diskless::run_with_records;
use reference::layout::RECORD_BYTES;
use reference::{decode, Answer, BUDGET_SPENT, EXCEPTION, TWO_MATCHES};

const MOST_BUDGET: u64 = 1_000_000;

/// The reference, with an index that is given up.
fn reference(lent: &mut Slices, budget: u64) -> Answer {
    let Slices { image, execution, bootstrap, ram, paper, journal, index } = lent;
    let index = &mut index.to_vec();
    run_with_records(image, execution, bootstrap, ram, paper, journal, index, budget, 1)
}

/// The word in RAM at the place of a record of a step.
fn stored(ram: &[u8], record: &[u8]) -> u32 {
    if word(record, KIND) == RAM_WORD {
        record::word(&ram[word(record, WHICH) as usize..], 0)
    } else {
        0
    }
}

fn without_slots(fault: Fault, lent: &mut Slices, clock: u64, met: &mut Kept) {
    met.without_slots += 1;
    match fault {
        NoSlotsButMarked => lent.index[..16].copy_from_slice(&entry::of(Some(clock))),
        NoSlotsAndCleared => lent.index.fill(0),
        _ => {}
    }
}

fn step(fault: Fault, lent: &mut Slices, keeps: bool, met: &mut Kept) -> Answer {
    let before = decode(lent.image);
    let clock = before.clock.wrapping_add(1);
    let slots = (lent.journal.len() / RECORD_BYTES) as u32;
    let slot = before.next_slot as usize;
    let dropped = if slots == 0 { Vec::new() } else { at(lent.journal, slot).to_vec() };
    let answer = reference(lent, 1);
    if answer.steps == 0 {
        return answer;
    }
    if slots == 0 {
        without_slots(fault, lent, clock, met);
        return answer;
    }
    let record = &mut lent.journal[RECORD_BYTES * slot..][..RECORD_BYTES];
    if word(record, KIND) == RAM_WORD {
        set(record, DISTANCE, 0);
    }
    if keeps {
        let now = stored(lent.ram, record);
        let on_hand = before.on_hand;
        let mut taken = Taken { slots, on_hand, clock, dropped: &dropped, record, now };
        keep::step(fault, lent.index, &mut taken, met);
    }
    answer
}

fn steps(fault: Fault, lent: &mut Slices, budget: u64, stop: u64, met: &mut Kept) -> Answer {
    if fault == RunClearsTheIndex && budget > 0 {
        lent.index.fill(0);
    }
    let mut steps = 0;
    while u64::from(steps) < budget {
        let keeps = match fault {
            RunKeepsNoIndex => false,
            OnlyTheFirstStepMarks => steps == 0,
            OnlyTheLastStepMarks => u64::from(steps) + 1 == budget,
            _ => true,
        };
        let answer = step(fault, lent, keeps, met);
        if answer.number != 0 {
            // A fault of the caller's: what it was lent has been judged.
            return answer;
        }
        steps += answer.steps;
        if answer.reason == TWO_MATCHES || answer.reason == EXCEPTION && stop != 0 {
            return Answer::done(answer.reason, steps);
        }
    }
    Answer::done(BUDGET_SPENT, steps)
}

pub fn run(fault: Fault, mut lent: Slices, budget: u64, stop: u64, met: &mut Kept) -> Answer {
    // Rows only: no step is taken.
    let Slices { image, execution, bootstrap, ram, paper, journal, index } = &mut lent;
    let judged = if budget > MOST_BUDGET { budget } else { 0 };
    let number =
        run_with_records(image, execution, bootstrap, ram, paper, journal, index, judged, 1).number;
    let due = empty_index(ram.len()).len();
    let wrong = index.len() != due;
    match fault {
        RunJudgesNoIndex if number == 10 => {}
        RunTakesALongerIndex if number == 10 && index.len() > due => {}
        RunJudgesTheIndexFirst if wrong => return Answer::refused(10),
        RunJudgesTheIndexBeforeTheBudget if wrong && number == 6 => return Answer::refused(10),
        RunClearsWhereItRefuses if number != 0 => {
            index.fill(0);
            return Answer::refused(number);
        }
        _ if number != 0 => return Answer::refused(number),
        _ => return steps(fault, &mut lent, budget, stop, met),
    }
    let mut fitted = empty_index(ram.len());
    let lent = &mut Slices { image, execution, bootstrap, ram, paper, journal, index: &mut fitted };
    steps(fault, lent, budget, stop, met)
}
