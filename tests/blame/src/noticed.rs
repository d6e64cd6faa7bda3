//! Whether each panel that is wrong on purpose is noticed.

use crate::dice::Dice;
use crate::faults::{Fault, FAULTS};
use crate::history::live;
use crate::met::Met;
use crate::named_faults::words;
use std::panic::{catch_unwind, set_hook, take_hook, AssertUnwindSafe};
use std::sync::Mutex;

const SEED: u64 = 1;
const HISTORIES: u64 = 1_000;

/// Only these judge; a slip of the wrong panel itself is no notice.
const JUDGES: [&str; 4] = ["src/ask.rs", "src/screen.rs", "src/world.rs", "src/moves.rs"];

/// Where the last history broke off.
static BROKE_OFF: Mutex<String> = Mutex::new(String::new());

/// The history in which it was noticed, and by whom.
fn noticed(fault: Fault) -> Option<(u64, String)> {
    let dice = &mut Dice::new(SEED);
    let met = &mut Met::default();
    let number = (1..=HISTORIES)
        .find(|_| catch_unwind(AssertUnwindSafe(|| live(dice, Some(fault), met))).is_err())?;
    let by = BROKE_OFF.lock().expect("one thread").clone();
    JUDGES.iter().any(|judge| by.starts_with(judge)).then(|| (number, by))
}

pub fn all() -> bool {
    let hook = take_hook();
    set_hook(Box::new(|broke_off| {
        let place = broke_off.location().map(|at| format!("{}, line {}", at.file(), at.line()));
        *BROKE_OFF.lock().expect("one thread") = place.unwrap_or_default();
    }));
    let found: Vec<_> = FAULTS.iter().map(|&fault| (fault, noticed(fault))).collect();
    set_hook(hook);
    for (fault, seen) in &found {
        let name = words(fault);
        match seen {
            Some((number, by)) => println!("blame: noticed in history {number:>3}: {name} ({by})"),
            None => eprintln!("blame: NOT NOTICED: {name}"),
        }
    }
    found.iter().all(|(_, seen)| seen.is_some())
}
