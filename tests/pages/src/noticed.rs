//! Whether each run that is wrong on purpose is noticed, and the memory without
//! a fault is not.

use crate::dice::Dice;
use crate::fault_now::set_fault;
use crate::faults::{Fault, FAULTS};
use crate::met::Met;
use crate::named_faults::words;
use crate::sessions;

const SEED: u64 = 1;
const MOST: u64 = 2_000;

fn noticed(fault: Fault) -> Option<u64> {
    set_fault(Some(fault));
    let met = &mut Met::default();
    let session = (0..MOST).find(|one| sessions::one(&mut Dice::of(SEED, *one), met).is_err());
    set_fault(None);
    session
}

pub fn all() -> bool {
    let mut all = true;
    for fault in FAULTS {
        let name = words(fault);
        match (noticed(*fault), *fault == Fault::NoFault) {
            (Some(session), false) => println!("pages: noticed in session {session:>4}: {name}"),
            (None, true) => println!("pages: the same memory without a fault: all equal"),
            _ => {
                println!("pages: NOT AS EXPECTED: {name}");
                all = false;
            }
        }
    }
    all
}
