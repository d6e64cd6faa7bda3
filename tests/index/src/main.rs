//! Compares the index of request L6, and the question who last wrote a word, with
//! the reference: random histories of resets, runs and take-backs, the index also
//! with one that is worked out afresh, the question also with a list of what each
//! step altered; and the refusals.
//!
//! `index [SEED [HISTORIES]]`. Exit 0: all equal, all counts met, and every call
//! that is wrong on purpose noticed; 1: not so.

#[allow(dead_code)]
#[path = "../../../reference/tests/common/asm.rs"]
mod asm;
#[allow(dead_code)]
#[path = "../../calls/src/fields.rs"]
mod fields;
#[allow(dead_code)]
#[path = "../../calls/src/report.rs"]
mod report;
#[allow(dead_code)]
#[path = "../../calls/src/valid.rs"]
mod valid;

#[allow(dead_code)]
#[path = "../../run/src/call.rs"]
mod call;
#[allow(dead_code)]
#[path = "../../run/src/lengths.rs"]
mod lengths;
#[path = "../../run/src/names.rs"]
mod names;
#[allow(dead_code)]
#[path = "../../run/src/wild.rs"]
mod wild;
#[allow(dead_code)]
#[path = "../../run/src/wrong.rs"]
mod wrong;

#[allow(dead_code)]
#[path = "../../back/src/asked.rs"]
mod asked;
#[allow(dead_code)]
#[path = "../../back/src/record.rs"]
mod record;
#[allow(dead_code)]
#[path = "../../back/src/sides.rs"]
mod sides;

#[allow(dead_code)]
#[path = "../../doubles/src/look.rs"]
mod look;

#[path = "../../common/lending.rs"]
mod archive;
#[path = "../../common/arguments.rs"]
mod arguments;
#[allow(dead_code)]
#[path = "../../common/dice.rs"]
mod dice;
#[path = "../../common/fault_now.rs"]
mod fault_now;
#[path = "../../common/guarded.rs"]
mod guarded;
#[path = "../../common/lavushmir.rs"]
mod lavushmir;
#[allow(dead_code)]
#[path = "../../common/least.rs"]
mod least;
#[path = "../../common/lent.rs"]
mod lent;
#[path = "../../common/named_faults.rs"]
mod named_faults;

mod ask;
mod edges;
mod entry;
mod faults;
mod forge;
mod hands;
mod histories;
mod history;
mod keep;
mod lending;
mod met;
mod noticed;
mod past;
mod pool;
mod program;
mod refusals;
mod wrong_ask;
mod wrong_back;
mod wrong_reset;
mod wrong_run;

use dice::Dice;
use histories::Size;
use met::{Counts, Met, HISTORIES};
use pool::Pool;
use report::different;
use std::process::exit;

const PROGRESS: u64 = 10_000;

/// Of each combination of refusals.
fn each(histories: u64) -> u64 {
    (histories / 2_500).clamp(2, 40)
}

fn main() {
    let seed = arguments::seed();
    let histories = arguments::amount("number of histories", HISTORIES);
    println!("index: seed {seed}, {histories} histories");
    let pool = Pool::new(&mut Dice::new(seed));
    let met = &mut Met::default();
    for history in 0..histories {
        let dice = &mut Dice::of(seed, history);
        if let Err(lines) = histories::one(dice, &pool, Size::of(history), met) {
            different(&format!("seed {seed}, history {history}"), &lines);
        }
        if (history + 1) % PROGRESS == 0 {
            println!("index: {} histories so far", history + 1);
        }
    }
    edges::compare(!seed, &pool, each(histories), met);
    let counts = &mut Counts::new(histories);
    met.print(counts);
    let noticed = noticed::all(&pool);
    let met_all = counts.end();
    match noticed {
        Some(count) if met_all => {
            println!("index: all equal, and all {count} wrong calls noticed");
        }
        _ => exit(1),
    }
}
