//! Damaged journals: 8 or done by the judge here, by the reference and by the
//! archive, with every byte that a done one gives back.

use crate::call::Call;
use crate::case::{Case, Met};
use crate::damage::DAMAGES;
use crate::dice::Dice;
use crate::judge::{Judge, WRONGS};
use crate::lent::empty_index;
use crate::pool::Pool;
use crate::record::*;
use crate::report::different;
use crate::scene::scene;
use crate::sides::Sides;
use crate::starts::{together, LONGEST};
use reference::diskless::run_with_records;
use reference::{decode, encode};

/// Damages tried on one run's journal.
const ON_ONE: u64 = 8;
const ON_A_LONG_ONE: u64 = 32;

pub const SLOTS: [usize; 5] = [1, 2, 3, 17, LONGEST];
pub const OTHER_LENGTHS: [&str; 3] = ["done", "refused with 5", "refused with 8"];

/// A state with steps on hand.
fn ran(dice: &mut Dice, pool: &Pool, slots: usize) -> Call {
    loop {
        let call = tried(dice, pool, slots);
        if decode(&call.image).on_hand > 0 {
            return call;
        }
    }
}

/// A state from the reference alone; that the archive runs to the same is
/// compared elsewhere. No step is taken where its first one meets two matches.
fn tried(dice: &mut Dice, pool: &Pool, slots: usize) -> Call {
    let mut call = scene(dice, pool);
    if dice.chance(3) {
        together(dice, pool, &mut call);
    }
    call.journal = pool.bytes(dice, RECORD_BYTES * slots);
    let mut machine = decode(&call.image);
    machine.on_hand = 0;
    machine.next_slot = dice.below(slots as u32);
    encode(&machine, &mut call.image);
    let steps = match slots {
        LONGEST => dice.between(100, 100_000),
        _ => dice.between(1, 40),
    };
    let Call { image, execution, bootstrap, ram, paper, journal, index, .. } = &mut call;
    run_with_records(image, execution, bootstrap, ram, paper, journal, index, steps.into(), 0);
    call
}

fn journal(dice: &mut Dice, pool: &Pool, what: String, slots: usize, first: u64, met: &mut Met) {
    let call = ran(dice, pool, slots);
    let sides = Sides::new(call);
    let left = sides.theirs.clone();
    let machine = sides.machine();
    let judge = Judge::new(&machine, left.ram.len(), left.paper.len());
    for slot in newest(machine.next_slot, slots, machine.on_hand as usize) {
        met.records += 1;
        let wrongs = judge.wrongs(at(&left.journal, slot));
        if wrongs != 0 {
            let line =
                format!("slot {slot}: the record of a step is wrong by the judge: {wrongs:x}");
            different("a damaged journal", &[what, line]);
        }
    }
    let count = if slots == LONGEST { ON_A_LONG_ONE } else { ON_ONE };
    let mut case = Case { what, sides, left, machine, judge, met };
    for number in first..first + count {
        case.one(dice, (number % DAMAGES.len() as u64) as usize);
        let place = SLOTS.iter().position(|other| *other == slots).expect("one of the list");
        case.met.by_slots[place] += 1;
    }
}

/// Records of a run, lent with RAM or paper of another length: the places and
/// the rules are judged by what is lent now.
fn other_lengths(dice: &mut Dice, pool: &Pool, what: String, met: &mut Met) {
    let mut call = ran(dice, pool, 17);
    let machine = decode(&call.image);
    let steps = dice.between(1, machine.on_hand);
    // Few stores are near the end of RAM; one of the steps becomes one.
    let slot = newest(machine.next_slot, 17, dice.between(1, steps) as usize).last();
    let record = &mut call.journal[RECORD_BYTES * slot.expect("at least one")..][..RECORD_BYTES];
    let place = call.ram.len() as u32 - 4 * dice.between(1, 16);
    for (word, value) in [(KIND, RAM_WORD), (WHICH, place), (OLD, dice.word()), (OLD_LOW, 0)] {
        set(record, word, value);
    }
    if dice.chance(2) {
        let length = dice.pick(&[1, 2, 3, 4]) * 4_096;
        call.ram.resize(length, 0x5A);
        call.index.resize(empty_index(length).len(), 0x5A);
    } else {
        let length = dice.pick(&[0, 8, 16, 64, 128, 800]);
        call.paper.resize(length, 0x5A);
    }
    let judge = Judge::new(&machine, call.ram.len(), call.paper.len());
    let mut slots = newest(machine.next_slot, 17, steps as usize);
    let bad = slots.any(|slot| judge.wrongs(at(&call.journal, slot)) != 0);
    let eighth = call.paper.len() / 8;
    let full = machine.printers.iter().any(|printer| printer.paper_count as usize > eighth);
    let place = match (full, bad) {
        (true, _) => 1,
        (false, true) => 2,
        (false, false) => 0,
    };
    let expected = [0, 5, 8][place];
    let mut sides = Sides::new(call);
    let lines = match sides.take_back(steps.into()) {
        Err(lines) => lines,
        Ok(answer) if answer.number == expected => {
            met.other_lengths[place] += 1;
            return;
        }
        Ok(answer) => vec![format!("answered {}, not {expected}", answer.number)],
    };
    different("other lengths lent", &[vec![what], lines].concat())
}

pub fn compare(seed: u64, journals: u64) -> Met {
    let pool = Pool::new(&mut Dice::new(seed));
    let ways = vec![0; DAMAGES.len()];
    let wrongs = vec![0; WRONGS.len()];
    let mut met = Met {
        done: ways.clone(),
        refused: ways,
        alone: wrongs.clone(),
        wrong: wrongs,
        ..Met::default()
    };
    let mut number = 0;
    while met.journals < journals {
        let mut dice = Dice::of(seed, number);
        let what = format!("seed {seed}, journal {number}");
        let slots = match number % 500 {
            499 => LONGEST,
            _ => dice.pick(&[1, 2, 3, 17, 17, 17]),
        };
        let first = met.journals;
        journal(&mut dice, &pool, what, slots, first, &mut met);
        number += 1;
    }
    for number in 0..journals / 10 {
        let what = format!("seed {seed}, other lengths {number}");
        other_lengths(&mut Dice::of(!seed, number), &pool, what, &mut met);
    }
    met
}
