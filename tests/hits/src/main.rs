//! Compares where the runs of a session of gdb stop, through `station_gdb_turn`,
//! with a plain loop of single steps of the reference: the stop that is told, the
//! number of steps, and every lent byte.
//!
//! `hits [QUESTIONS [SEED]]`. Exit 0: all equal, all counts met, and every answer
//! that is wrong on purpose noticed; 1: not so.
//!
//! The rules:
//! - `c` looks at the first PC for a break point; `s`, `r`, `bc` and `bs` do not.
//! - A watch stops before the store in the direction of travel: forwards with the
//!   store not done, backwards with the store not yet undone, maybe after no step.
//!   `s`, `r` and `bs` look at watches too.
//! - A store that leaves all watched bytes as they were is no hit.
//! - In one step forwards: the break point at its PC, then the watch. Backwards: the
//!   watch of the newest step; else it is undone, then the break point at its PC.
//! - No exception stops a run. Two entries that match do, with the machine's own rule.
//! - A byte 3 while nothing runs is kept, and the next resume ends at once.
//! - After a stop every byte is as a plain run of that many steps would leave it, or
//!   a plain take-back: no step on hand is lost because the stub looked further.
//!
//! A watch is of virtual bytes, translated when it comes and again at each resume.
//! Asked is only what that determines: at each resume the machine's own rules for
//! an access lead from the watched address to the same place as when the watch came
//! (untranslated RAM, or a page that exactly one valid entry maps), and no program
//! changes the entry of a watched page. A watch for which that does not hold is taken
//! out before the resume. Not asked either: a range step from a break point, and
//! what follows a Ctrl-C that comes as an event when the run has ended already.

#[allow(dead_code)]
#[path = "../../common/arguments.rs"]
mod arguments;
#[path = "../../../reference/tests/common/asm.rs"]
mod asm;
#[allow(dead_code)]
#[path = "../../common/dice.rs"]
mod dice;
#[path = "../../common/named_faults.rs"]
mod named_faults;
#[allow(dead_code)]
#[path = "../../common/packet.rs"]
mod packet;
#[allow(dead_code)]
#[path = "../../common/paged.rs"]
mod paged;
#[allow(dead_code)]
#[path = "../../common/stub.rs"]
mod stub;

mod ask;
mod choose;
mod due;
mod faults;
mod history;
mod met;
mod noticed;
mod past;
mod points;
mod program;
mod talk;
mod world;
mod wrong;

use dice::Dice;
use faults::FAULTS;
use met::Met;
use std::panic::{catch_unwind, AssertUnwindSafe};
use std::process::exit;

const DEFAULT_QUESTIONS: u64 = 2_000;
const DEFAULT_SEED: u64 = 1;

fn main() {
    let questions = arguments::argument(1, "number of questions", DEFAULT_QUESTIONS);
    let seed = arguments::argument(2, "seed", DEFAULT_SEED);
    println!("hits: {questions} questions, seed {seed}");
    let met = &mut Met::default();
    let mut number = 0;
    while met.questions < questions {
        number += 1;
        let dice = &mut Dice::of(seed, number);
        let left = questions - met.questions;
        if catch_unwind(AssertUnwindSafe(|| history::live(dice, left, None, met))).is_err() {
            eprintln!("hits: not equal in machine {number} of seed {seed}");
            exit(1);
        }
    }
    if !met.enough(questions) {
        exit(1);
    }
    println!("hits: all equal");
    if !noticed::all() {
        exit(1);
    }
    println!("hits: all {} wrong answers noticed", FAULTS.len());
}
