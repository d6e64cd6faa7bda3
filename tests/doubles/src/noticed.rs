//! Whether each run that is wrong on purpose is noticed.

use crate::dice::Dice;
use crate::fault_now::set_fault;
use crate::faults::{Fault, FAULTS};
use crate::met::Met;
use crate::named_faults::words;
use crate::{histories, runs};

const SEED: u64 = 1;
const MOST: u64 = 4_000;

/// A run, or a history, in which it was.
fn noticed(fault: Fault, bytes: &[u8]) -> (Option<u64>, Option<u64>) {
    set_fault(Some(fault));
    let met = &mut Met::new();
    let run = (0..MOST).find(|run| runs::one(&mut Dice::of(SEED, *run), bytes, met).is_err());
    let history =
        (0..MOST).find(|one| histories::one(&mut Dice::of(!SEED, *one), bytes, met).is_err());
    set_fault(None);
    (run, history)
}

/// All of them in a run and in a history.
pub fn all(bytes: &[u8]) -> bool {
    let mut all = true;
    for fault in FAULTS {
        match noticed(*fault, bytes) {
            (Some(run), Some(history)) => {
                let name = words(fault);
                println!("doubles: noticed in run {run:>4} and history {history:>4}: {name}");
            }
            (run, history) => {
                println!("doubles: NOT NOTICED: {}: {run:?}, {history:?}", words(fault));
                all = false;
            }
        }
    }
    all
}
