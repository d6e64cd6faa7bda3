//! Whether each answer that is wrong on purpose is noticed.

use crate::dice::Dice;
use crate::faults::{Fault, FAULTS};
use crate::history::live;
use crate::met::Met;
use crate::named_faults::words;
use std::panic::{catch_unwind, set_hook, take_hook, AssertUnwindSafe};
use std::sync::Mutex;

const SEED: u64 = 1;
const QUESTIONS: u64 = 6_000;

/// Only this judges; a slip of the wrong answer itself is no notice.
const JUDGE: &str = "src/ask.rs";

/// Where the last history broke off.
static BROKE_OFF: Mutex<String> = Mutex::new(String::new());

/// The question in which it was noticed, and by whom.
fn noticed(fault: Fault) -> Option<(u64, String)> {
    let dice = &mut Dice::new(SEED);
    let met = &mut Met::default();
    while met.questions < QUESTIONS {
        let done = catch_unwind(AssertUnwindSafe(|| live(dice, QUESTIONS, Some(fault), met)));
        if done.is_err() {
            let by = BROKE_OFF.lock().expect("one thread").clone();
            return by.starts_with(JUDGE).then_some((met.questions + 1, by));
        }
    }
    None
}

pub fn all() -> bool {
    let hook = take_hook();
    set_hook(Box::new(|broke_off| {
        let place = broke_off.location().map(|at| format!("{}, line {}", at.file(), at.line()));
        *BROKE_OFF.lock().expect("one thread") = place.unwrap_or_default();
    }));
    let found: Vec<_> = FAULTS.iter().map(|&fault| (fault, noticed(fault))).collect();
    set_hook(hook);
    for (fault, seen) in &found {
        let name = words(fault);
        match seen {
            Some((number, by)) => println!("hits: noticed in question {number:>4}: {name} ({by})"),
            None => eprintln!("hits: NOT NOTICED: {name}"),
        }
    }
    found.iter().all(|(_, seen)| seen.is_some())
}
