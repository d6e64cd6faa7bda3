//! Compares runs of the archive that meet two matches in the translation table,
//! or nearly do, with the reference; and take-backs across their halts.
//!
//! `doubles [SEED [PERCENT]]`. Exit 0: all equal, all counts met, and every run
//! that is wrong on purpose noticed; 1: not so.

#[allow(dead_code)]
#[path = "../../../reference/tests/common/asm.rs"]
mod asm;
#[allow(dead_code)]
#[path = "../../calls/src/fields.rs"]
mod fields;
#[allow(dead_code)]
#[path = "../../calls/src/report.rs"]
mod report;

#[allow(dead_code)]
#[path = "../../run/src/call.rs"]
mod call;
#[path = "../../run/src/names.rs"]
mod names;

#[allow(dead_code)]
#[path = "../../back/src/sides.rs"]
mod sides;

#[path = "../../common/lending.rs"]
mod archive;
#[path = "../../common/arguments.rs"]
mod arguments;
#[allow(dead_code)]
#[path = "../../common/dice.rs"]
mod dice;
#[path = "../../common/fault_now.rs"]
mod fault_now;
#[path = "../../common/guarded.rs"]
mod guarded;
#[path = "../../common/lavushmir.rs"]
mod lavushmir;
#[path = "../../common/least.rs"]
mod least;
#[allow(dead_code)]
#[path = "../../common/lent.rs"]
mod lent;
#[path = "../../common/named_faults.rs"]
mod named_faults;

mod code;
mod faults;
mod halts;
mod histories;
mod kinds;
mod lending;
mod lines;
mod look;
mod met;
mod noticed;
mod runs;
mod scene;
mod sight;
mod table;
mod way;
mod words;
mod wrong;
mod wrong_halts;

use dice::Dice;
use least::Least;
use met::{Met, HISTORIES, RUNS};
use report::different;
use std::process::exit;

/// Enough for the longest of the lent buffers.
const MOST_BYTES: usize = 4 * 4_096;

fn main() {
    let seed = arguments::seed();
    let percent = arguments::amount("percentage", 100);
    println!("doubles: seed {seed}");
    let bytes = Dice::new(seed).bytes(MOST_BYTES);
    let met = &mut Met::new();
    for run in 0..RUNS * percent / 100 {
        if let Err(lines) = runs::one(&mut Dice::of(seed, run), &bytes, met) {
            different(&format!("seed {seed}, run {run}"), &lines);
        }
    }
    for history in 0..HISTORIES * percent / 100 {
        if let Err(lines) = histories::one(&mut Dice::of(!seed, history), &bytes, met) {
            different(&format!("seed {seed}, history {history}"), &lines);
        }
    }
    let least = &mut Least::new(percent, 100);
    met.print(least);
    if !noticed::all(&bytes) {
        exit(1);
    }
    least.end();
    println!("doubles: all equal, and all {} wrong runs noticed", faults::FAULTS.len());
}
