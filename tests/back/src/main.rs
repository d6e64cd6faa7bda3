//! Compares take-back of the archive with the reference: random sequences of
//! runs and take-backs, refusals, damaged journals, and a long soak.
//!
//! `back [SEED [PERCENT]]`. Exit 0: all equal and all counts met; 1: not so.

#[path = "../../../reference/tests/common/asm.rs"]
mod asm;
#[path = "../../calls/src/breaches.rs"]
mod breaches;
#[allow(dead_code)]
#[path = "../../calls/src/fields.rs"]
mod fields;
#[allow(dead_code)]
#[path = "../../calls/src/report.rs"]
mod report;
#[allow(dead_code)]
#[path = "../../calls/src/valid.rs"]
mod valid;

#[path = "../../run/src/accesses.rs"]
mod accesses;
#[path = "../../run/src/aims.rs"]
mod aims;
#[allow(dead_code)]
#[path = "../../run/src/book.rs"]
mod book;
#[allow(dead_code)]
#[path = "../../run/src/call.rs"]
mod call;
#[path = "../../run/src/code.rs"]
mod code;
#[path = "../../run/src/control.rs"]
mod control;
#[path = "../../run/src/handlers.rs"]
mod handlers;
#[path = "../../run/src/lengths.rs"]
mod lengths;
#[allow(dead_code)]
#[path = "../../run/src/look.rs"]
mod look;
#[path = "../../run/src/names.rs"]
mod names;
#[path = "../../run/src/plan.rs"]
mod plan;
#[path = "../../run/src/pool.rs"]
mod pool;
#[path = "../../run/src/printers.rs"]
mod printers;
#[path = "../../run/src/registers.rs"]
mod registers;
#[path = "../../run/src/scene.rs"]
mod scene;
#[path = "../../run/src/table.rs"]
mod table;
#[path = "../../run/src/wild.rs"]
mod wild;
#[path = "../../run/src/words.rs"]
mod words;
#[allow(dead_code)]
#[path = "../../run/src/wrong.rs"]
mod wrong;

#[path = "../../common/arguments.rs"]
mod arguments;
#[path = "../../common/dice.rs"]
mod dice;
#[path = "../../common/guarded.rs"]
mod guarded;
#[path = "../../common/lavushmir.rs"]
mod lavushmir;
#[allow(dead_code)]
#[path = "../../common/least.rs"]
mod least;
#[path = "../../common/lending.rs"]
mod lending;
#[path = "../../common/lent.rs"]
mod lent;

mod asked;
mod boot;
mod case;
mod counts;
mod damage;
mod damaged;
mod judge;
mod program;
mod record;
mod refusals;
mod sequence;
mod sequences;
mod sides;
mod soak;
mod starts;
mod stepped;

use counts::{JOURNALS, SEQUENCES, SOAK_STEPS};
use least::Least;

fn main() {
    let seed = arguments::seed();
    let percent = arguments::amount("percentage", 100);
    println!("back: seed {seed}");
    let least = &mut Least::new(percent, 100);
    // Each part has dice of its own, so that one can change without the rest.
    counts::sequences(least, &sequences::compare(seed, SEQUENCES * percent / 100));
    counts::refusals(least, &refusals::compare(seed.wrapping_add(1 << 60), percent));
    let journals = JOURNALS * percent / 100;
    counts::damaged(least, &damaged::compare(seed.wrapping_add(2 << 60), journals));
    let steps = SOAK_STEPS * percent / 100;
    counts::soak(least, &soak::compare(seed.wrapping_add(3 << 60), steps));
    least.end();
    println!("back: all equal");
}
