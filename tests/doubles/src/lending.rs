//! The archive's calls, or, while a fault is set, a run that is wrong on purpose
//! in the place of the archive's, with the reference's take-back.

use crate::archive;
pub use crate::archive::reset;
use crate::fault_now::fault;
use crate::lent::{Lent, Slices};

pub fn run(lent: &mut Lent, budget: u64, stop: u64) -> u64 {
    match fault() {
        None => archive::run(lent, budget, stop),
        Some(fault) => lent.slices().run(fault, budget, stop).packed(),
    }
}

pub fn take_back(lent: &mut Lent, steps: u64) -> u64 {
    if fault().is_none() {
        return archive::take_back(lent, steps);
    }
    let Slices { image, ram, paper, journal, index, .. } = lent.slices();
    reference::diskless::take_back(image, ram, paper, journal, index, steps).packed()
}
