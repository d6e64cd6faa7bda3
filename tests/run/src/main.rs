//! Compares run of the archive with the reference: random runs, and the
//! refusals.
//!
//! `run [SEED [RUNS]]`. Exit 0: all equal and all counts met; 1: not so.

#[path = "../../common/arguments.rs"]
mod arguments;
#[path = "../../calls/src/breaches.rs"]
mod breaches;
#[allow(dead_code)]
#[path = "../../common/dice.rs"]
mod dice;
#[allow(dead_code)]
#[path = "../../calls/src/fields.rs"]
mod fields;
#[path = "../../common/guarded.rs"]
mod guarded;
#[allow(dead_code)]
#[path = "../../common/lavushmir.rs"]
mod lavushmir;
#[allow(dead_code)]
#[path = "../../common/least.rs"]
mod least;
#[allow(dead_code)]
#[path = "../../common/lending.rs"]
mod lending;
#[path = "../../common/lent.rs"]
mod lent;
#[allow(dead_code)]
#[path = "../../calls/src/report.rs"]
mod report;
#[allow(dead_code)]
#[path = "../../calls/src/valid.rs"]
mod valid;

mod access_corners;
mod accesses;
mod aims;
mod archive;
mod book;
mod call;
mod call_corners;
mod code;
mod control;
mod corners;
mod counts;
mod difference;
mod handlers;
mod lengths;
mod look;
mod names;
mod plan;
mod pool;
mod printed;
mod printers;
mod refusals;
mod refused;
mod registers;
mod runs;
mod scene;
mod seen;
mod sight;
mod table;
mod wild;
mod words;
mod wrong;

use dice::Dice;

fn main() {
    let seed = arguments::seed();
    let runs = arguments::amount("count of runs", counts::RUNS);
    println!("run: seed {seed}");
    // Each part has dice of its own, so that one can change without the rest.
    let seen = runs::compare(seed, runs);
    refusals::compare(seed, &mut Dice::new(seed.wrapping_add(3 << 60)));
    counts::print(&seen);
    println!("run: all equal");
}
