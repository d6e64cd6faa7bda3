//! Compares slots of the archive with the reference: what a run makes of them
//! and of exceptions in them, what take-backs give back, and conversions of
//! images of the version before.
//!
//! `slots [SEED [PERCENT]]`. Exit 0: all equal, all counts met, and every call
//! that is wrong on purpose noticed; 1: not so.

#[allow(dead_code)]
#[path = "../../../reference/tests/common/asm.rs"]
mod asm;
#[path = "../../calls/src/breaches.rs"]
mod breaches;
#[allow(dead_code)]
#[path = "../../calls/src/fields.rs"]
mod fields;
#[allow(dead_code)]
#[path = "../../calls/src/report.rs"]
mod report;
#[allow(dead_code)]
#[path = "../../calls/src/valid.rs"]
mod valid;

#[allow(dead_code)]
#[path = "../../run/src/call.rs"]
mod call;
#[allow(dead_code)]
#[path = "../../run/src/lengths.rs"]
mod lengths;
#[path = "../../run/src/names.rs"]
mod names;
#[allow(dead_code)]
#[path = "../../run/src/wild.rs"]
mod wild;

#[allow(dead_code)]
#[path = "../../back/src/record.rs"]
mod record;
#[allow(dead_code)]
#[path = "../../back/src/sides.rs"]
mod sides;

#[allow(dead_code)]
#[path = "../../doubles/src/look.rs"]
mod look;

#[path = "../../common/lending.rs"]
mod archive;
#[path = "../../common/arguments.rs"]
mod arguments;
#[allow(dead_code)]
#[path = "../../common/dice.rs"]
mod dice;
#[path = "../../common/fault_now.rs"]
mod fault_now;
#[path = "../../common/guarded.rs"]
mod guarded;
#[path = "../../common/lavushmir.rs"]
mod lavushmir;
#[allow(dead_code)]
#[path = "../../common/least.rs"]
mod least;
#[allow(dead_code)]
#[path = "../../common/lent.rs"]
mod lent;
#[allow(unused_imports, unused_macros)]
#[path = "../../common/named_faults.rs"]
mod named_faults;

mod conversions;
mod faults;
mod histories;
mod kinds;
mod lending;
mod lines;
mod met;
mod noticed;
mod pool;
mod runs;
mod scene;
mod sight;
mod words;
mod wrong;
mod wrong_back;
mod wrong_convert;
mod wrong_reset;

use dice::Dice;
use least::Least;
use met::{Met, CONVERSIONS, HISTORIES, RUNS};
use pool::Pool;
use report::different;
use std::process::exit;

fn main() {
    let seed = arguments::seed();
    let percent = arguments::amount("percentage", 100);
    println!("slots: seed {seed}");
    let pool = Pool::new(&mut Dice::new(seed));
    let met = &mut Met::new();
    for run in 0..RUNS * percent / 100 {
        if let Err(lines) = runs::one(&mut Dice::of(seed, run), &pool, met) {
            different(&format!("seed {seed}, run {run}"), &lines);
        }
    }
    for history in 0..HISTORIES * percent / 100 {
        if let Err(lines) = histories::one(&mut Dice::of(!seed, history), &pool, met) {
            different(&format!("seed {seed}, history {history}"), &lines);
        }
    }
    for conversion in 0..CONVERSIONS * percent / 100 {
        if let Err(lines) = conversions::one(&mut Dice::of(seed ^ 0xC0, conversion), &pool, met) {
            different(&format!("seed {seed}, conversion {conversion}"), &lines);
        }
    }
    let least = &mut Least::new(percent, 100);
    met.print(least);
    if !noticed::all(&pool) {
        exit(1);
    }
    least.end();
    println!("slots: all equal, and all {} wrong calls noticed", faults::all().len());
}
