//! Compares what is sought in the journal, through the archive of the exports
//! for tests, with every value that the reference had on its way.
//!
//! `seek [SEED [HISTORIES]]`. Exit 0: all equal and all counts met; 1: not so.

#[path = "../../common/arguments.rs"]
mod arguments;
#[allow(dead_code)]
#[path = "../../../reference/tests/common/asm.rs"]
mod asm;
#[allow(dead_code)]
#[path = "../../common/dice.rs"]
mod dice;

mod archive;
mod ask;
mod history;
mod met;
mod past;
mod program;

use dice::Dice;
use history::History;
use met::Met;
use std::panic::{catch_unwind, AssertUnwindSafe};
use std::process::exit;

const DEFAULT_HISTORIES: u64 = 50_000;

/// Five numbers of slots by name; the sixth is any other up to 80.
const SLOTS: [usize; 5] = [0, 1, 2, 3, 17];

fn live(dice: &mut Dice, met: &mut Met) {
    let choice = dice.below(6) as usize;
    met.by_slots[choice] += 1;
    let slots = SLOTS.get(choice).copied().unwrap_or_else(|| dice.between(4, 80) as usize);
    let mut history = History::new(dice, slots);
    for _ in 0..dice.between(3, 8) {
        if dice.chance(3) {
            history.take_back(dice.between(0, history.past.on_hand as u32) as usize);
            met.take_backs += 1;
        } else {
            let most = dice.pick(&[1, 5, 20, 60]);
            history.run(dice.between(1, most).into());
            met.runs += 1;
        }
        ask::all(dice, &history, met);
    }
}

fn main() {
    let seed = arguments::seed();
    let histories = arguments::amount("number of histories", DEFAULT_HISTORIES);
    println!("seek: seed {seed}, {histories} histories");
    let dice = &mut Dice::new(seed);
    let met = &mut Met::default();
    for number in 1..=histories {
        if catch_unwind(AssertUnwindSafe(|| live(dice, met))).is_err() {
            eprintln!("seek: not equal in history {number} of seed {seed}");
            exit(1);
        }
    }
    if !met.enough(histories) {
        exit(1);
    }
    println!("seek: all equal");
}
