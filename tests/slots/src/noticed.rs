//! Whether each call that is wrong on purpose is noticed.

use crate::dice::Dice;
use crate::fault_now::set_fault;
use crate::faults::{self, Fault};
use crate::met::Met;
use crate::pool::Pool;
use crate::{conversions, histories, runs};

const SEED: u64 = 1;
const MOST: u64 = 3_000;

type One = fn(&mut Dice, &Pool, &mut Met) -> Result<(), Vec<String>>;

const PARTS: [(&str, u64, One); 3] = [
    ("run", SEED, runs::one),
    ("history", !SEED, histories::one),
    ("conversion", SEED ^ 0xC0, conversions::one),
];

/// The first of each part in which it was.
fn noticed(fault: Fault, pool: &Pool) -> Vec<String> {
    set_fault(Some(fault));
    let met = &mut Met::new();
    let mut found = Vec::new();
    for (name, seed, one) in PARTS {
        let first = (0..MOST).find(|number| one(&mut Dice::of(seed, *number), pool, met).is_err());
        found.extend(first.map(|number| format!("{name} {number}")));
    }
    set_fault(None);
    found
}

pub fn all(pool: &Pool) -> bool {
    let control = noticed(Fault::NotWrong, pool);
    let mut all = control.is_empty();
    if !all {
        println!("slots: NOTICED, though not wrong: {}", control.join(", "));
    }
    for fault in faults::all() {
        let (found, name) = (noticed(fault, pool), faults::name(fault));
        if found.is_empty() {
            println!("slots: NOT NOTICED: {name}");
            all = false;
        } else {
            println!("slots: noticed in {}: {name}", found.join(", "));
        }
    }
    all
}
