//! Compares runs of the archive with the reference in which the table, the
//! ASID, the mode and the code change all the time under few pages, so that a
//! translation that is remembered too long, or wrongly, shows.
//!
//! `pages [SEED [RUNS]]`. Exit 0: all equal, all counts met, and every run that
//! is wrong on purpose noticed; 1: not so.

#[path = "../../common/lending.rs"]
mod archive;
#[path = "../../common/arguments.rs"]
mod arguments;
#[allow(dead_code)]
#[path = "../../../reference/tests/common/asm.rs"]
mod asm;
#[allow(dead_code)]
#[path = "../../run/src/call.rs"]
mod call;
#[allow(dead_code)]
#[path = "../../common/dice.rs"]
mod dice;
#[path = "../../common/fault_now.rs"]
mod fault_now;
#[allow(dead_code)]
#[path = "../../calls/src/fields.rs"]
mod fields;
#[path = "../../common/guarded.rs"]
mod guarded;
#[path = "../../common/lavushmir.rs"]
mod lavushmir;
#[allow(dead_code)]
#[path = "../../common/least.rs"]
mod least;
#[path = "../../doubles/src/lending.rs"]
mod lending;
#[allow(dead_code)]
#[path = "../../common/lent.rs"]
mod lent;
#[allow(dead_code)]
#[path = "../../doubles/src/look.rs"]
mod look;
#[path = "../../common/named_faults.rs"]
mod named_faults;
#[path = "../../run/src/names.rs"]
mod names;
#[allow(dead_code)]
#[path = "../../calls/src/report.rs"]
mod report;
#[path = "../../back/src/sides.rs"]
#[allow(dead_code)]
mod sides;

mod changes;
mod faults;
mod met;
mod noticed;
mod scene;
mod sessions;
mod stale;
mod watch;
mod words;
mod wrong;

use dice::Dice;
use least::Least;
use met::Met;
use report::different;
use std::process::exit;

const RUNS: u64 = 1_000_000;

fn main() {
    let seed = arguments::seed();
    let runs = arguments::amount("number of runs", RUNS);
    println!("pages: seed {seed}");
    let met = &mut Met::default();
    let mut session = 0;
    while met.runs < runs {
        if let Err(lines) = sessions::one(&mut Dice::of(seed, session), met) {
            different(&format!("seed {seed}, session {session}"), &lines);
        }
        session += 1;
    }
    met.sessions = session;
    let least = &mut Least::new(runs, RUNS);
    met.print(least);
    if !noticed::all() {
        exit(1);
    }
    least.end();
    println!("pages: all equal, and all {} wrong memories noticed", faults::FAULTS.len() - 1);
}
