//! Compares disks of the archive with the reference: runs from the middle of
//! transfers, histories that go back into it, damaged journals, rules and refusals,
//! and resets. A model of the disks of its own stands behind both.
//!
//! `disks [SEED [PERCENT]]`. Exit 0: all equal, all counts met, and every call
//! that is wrong on purpose noticed; 1: not so.

#[allow(dead_code)]
#[path = "../../../reference/tests/common/asm.rs"]
mod asm;
#[allow(dead_code)]
#[path = "../../calls/src/fields.rs"]
mod fields;
#[allow(dead_code)]
#[path = "../../calls/src/report.rs"]
mod report;

#[path = "../../run/src/names.rs"]
mod names;
#[allow(dead_code)]
#[path = "../../back/src/record.rs"]
mod record;

#[allow(dead_code)]
#[path = "../../doubles/src/look.rs"]
mod look;

#[path = "../../common/arguments.rs"]
mod arguments;
#[allow(dead_code)]
#[path = "../../common/dice.rs"]
mod dice;
#[path = "../../common/fault_now.rs"]
mod fault_now;
#[allow(dead_code)]
#[path = "../../common/guarded.rs"]
mod guarded;
#[allow(dead_code)]
#[path = "../../common/least.rs"]
mod least;
#[allow(unused_imports, unused_macros)]
#[path = "../../common/named_faults.rs"]
mod named_faults;

mod archive;
mod code;
mod damage;
mod damaged;
mod disk;
mod faults;
mod hand;
mod histories;
mod judge;
mod kinds;
mod lent;
mod met;
mod model_ask;
mod model_back;
mod model_command;
mod model_index;
mod model_record;
mod model_reset;
mod model_rows;
mod model_run;
mod model_tick;
mod noticed;
mod refusals;
mod resets;
mod rules;
mod runs;
mod scene;
mod sides;
mod world;

use least::Least;
use met::Met;
use noticed::PARTS;
use report::different;
use std::process::exit;

fn main() {
    let seed = arguments::seed();
    let percent = arguments::amount("percentage", 100);
    println!("disks: seed {seed}");
    let met = &mut Met::new();
    for (name, count, one) in PARTS {
        for number in 0..count * percent / 100 {
            if let Err(lines) = one(&mut noticed::dice(seed, name, number), met) {
                different(&format!("seed {seed}, {name} {number}"), &lines);
            }
        }
    }
    let least = &mut Least::new(percent, 100);
    met.print(least);
    if !noticed::all() {
        exit(1);
    }
    least.end();
    println!("disks: all equal, and all {} wrong calls noticed", faults::all().len());
}
