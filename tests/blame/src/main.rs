//! Compares `blame` and `before` of the panel, through its turns, with every
//! state that the reference had since the reset.
//!
//! `blame [SEED [HISTORIES]]`. Exit 0: all equal, all counts met, and every
//! panel that is wrong on purpose noticed; 1: not so.

#[path = "../../common/arguments.rs"]
mod arguments;
#[path = "../../../reference/tests/common/asm.rs"]
mod asm;
#[allow(dead_code)]
#[path = "../../common/dice.rs"]
mod dice;
#[path = "../../common/guarded.rs"]
mod guarded;
#[allow(dead_code)]
#[path = "../../common/lent.rs"]
mod lent;
#[path = "../../common/named_faults.rs"]
mod named_faults;

mod ask;
mod faults;
mod history;
mod met;
mod moves;
mod noticed;
mod panel;
mod past;
mod program;
mod screen;
mod session;
mod show;
mod world;
mod wrong_answers;
mod wrong_states;

use dice::Dice;
use faults::FAULTS;
use met::Met;
use std::panic::{catch_unwind, AssertUnwindSafe};
use std::process::exit;

const DEFAULT_HISTORIES: u64 = 50_000;

fn main() {
    let seed = arguments::seed();
    let histories = arguments::amount("number of histories", DEFAULT_HISTORIES);
    println!("blame: seed {seed}, {histories} histories");
    let dice = &mut Dice::new(seed);
    let met = &mut Met::default();
    for number in 1..=histories {
        if catch_unwind(AssertUnwindSafe(|| history::live(dice, None, met))).is_err() {
            eprintln!("blame: not equal in history {number} of seed {seed}");
            exit(1);
        }
    }
    let enough = met.enough(histories);
    if !noticed::all() || !enough {
        exit(1);
    }
    println!("blame: all equal, and all {} wrong panels noticed", FAULTS.len());
}
