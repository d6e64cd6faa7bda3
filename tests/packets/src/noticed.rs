//! Whether each stub that is wrong on purpose is noticed.

use crate::dice::Dice;
use crate::faults::{Fault, FAULTS};
use crate::history::live;
use crate::met::Met;
use crate::named_faults::words;
use crate::stub::Tamper;
use std::panic::{catch_unwind, set_hook, take_hook, AssertUnwindSafe};
use std::sync::Mutex;

const SEED: u64 = 1;
const INPUTS: u64 = 5_000;

/// Only these judge; a slip of the wrong stub itself is no notice.
const JUDGES: [&str; 4] =
    ["src/judge.rs", "src/history.rs", "src/session.rs", "src/../../common/stub.rs"];

/// Where the last history broke off.
static BROKE_OFF: Mutex<String> = Mutex::new(String::new());

/// What is made wrong behind the call itself.
pub fn tamper(fault: Fault) -> Option<Tamper> {
    Some(match fault {
        Fault::WantsAnother => Tamper::WantsAnother,
        Fault::MoreSaidThanRoom => Tamper::MoreSaidThanRoom,
        Fault::MoreUsedThanSent => Tamper::MoreUsedThanSent,
        Fault::MoreForErrorsThanSaid => Tamper::MoreForErrorsThanSaid,
        Fault::StatusBeforeTheEnd => Tamper::StatusBeforeTheEnd,
        Fault::OtherBits => Tamper::OtherBits,
        Fault::WordBeside => Tamper::WordBeside,
        Fault::ByteBeside => Tamper::ByteBeside,
        Fault::InputWritten => Tamper::InputWritten,
        _ => return None,
    })
}

/// The input at which it was noticed, and by whom.
fn noticed(fault: Fault) -> Option<(u64, String)> {
    let dice = &mut Dice::new(SEED);
    let met = &mut Met::default();
    while met.inputs < INPUTS {
        let done = catch_unwind(AssertUnwindSafe(|| live(dice, INPUTS, Some(fault), met)));
        if done.is_err() {
            let by = BROKE_OFF.lock().expect("one thread").clone();
            return JUDGES.iter().any(|judge| by.starts_with(judge)).then_some((met.inputs, by));
        }
    }
    None
}

pub fn all() -> bool {
    let hook = take_hook();
    set_hook(Box::new(|broke_off| {
        let place = broke_off.location().map(|at| format!("{}, line {}", at.file(), at.line()));
        *BROKE_OFF.lock().expect("one thread") = place.unwrap_or_default();
    }));
    let found: Vec<_> = FAULTS.iter().map(|&fault| (fault, noticed(fault))).collect();
    set_hook(hook);
    for (fault, seen) in &found {
        let name = words(fault);
        match seen {
            Some((number, by)) => println!("packets: noticed at input {number:>4}: {name} ({by})"),
            None => eprintln!("packets: NOT NOTICED: {name}"),
        }
    }
    found.iter().all(|(_, seen)| seen.is_some())
}
