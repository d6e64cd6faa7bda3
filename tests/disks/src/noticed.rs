//! The parts of the comparison, and whether each call that is wrong on purpose is
//! noticed in one of them.

use crate::dice::Dice;
use crate::fault_now::set_fault;
use crate::faults::{self, Fault};
use crate::met::Met;
use crate::sides::Checked;
use crate::{damaged, histories, refusals, resets, runs};

type One = fn(&mut Dice, &mut Met) -> Checked;

/// With how many of each make the whole.
pub const PARTS: [(&str, u64, One); 5] = [
    ("run", 60_000, runs::one),
    ("history", 12_000, histories::one),
    ("damaged journal", 30_000, damaged::one),
    ("refusal", 40_000, refusals::one),
    ("reset", 40_000, resets::one),
];

const SEED: u64 = 1;

/// So many of each are tried with a fault.
const MOST: u64 = 1_500;

pub fn dice(seed: u64, part: &str, number: u64) -> Dice {
    Dice::of(seed.wrapping_add((part.len() as u64) << 56), number)
}

/// The first of the parts in which it was.
fn noticed(fault: Fault) -> Option<String> {
    set_fault(Some(fault));
    let met = &mut Met::new();
    let found = (0..MOST).find_map(|number| {
        let mut parts = PARTS.iter();
        let first = parts.find(|(name, _, one)| one(&mut dice(SEED, name, number), met).is_err());
        first.map(|(name, _, _)| format!("{name} {number}"))
    });
    set_fault(None);
    found
}

pub fn all() -> bool {
    let mut all = true;
    if let Some(place) = noticed(Fault::NotWrong) {
        println!("disks: NOTICED in {place}, though not wrong");
        all = false;
    }
    for fault in faults::all() {
        let name = faults::name(fault);
        match noticed(fault) {
            Some(place) => println!("disks: noticed in {place}: {name}"),
            None => {
                println!("disks: NOT NOTICED: {name}");
                all = false;
            }
        }
    }
    all
}
