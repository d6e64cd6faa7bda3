//! The archive's calls, or, while a fault is set, calls that are wrong on purpose
//! in their place.

use crate::fault_now::fault;
use crate::keep::Kept;
use crate::lent::{Lent, Slices};
use crate::{archive, lavushmir, wrong_ask, wrong_back, wrong_reset, wrong_run};

pub fn reset(lent: &mut Lent, parameters: [u64; 3]) -> u64 {
    match fault() {
        None => archive::reset(lent, parameters),
        Some(fault) => wrong_reset::reset(fault, lent.slices(), parameters).packed(),
    }
}

pub fn run(lent: &mut Lent, budget: u64, stop: u64) -> u64 {
    let met = &mut Kept::default();
    match fault() {
        None => archive::run(lent, budget, stop),
        Some(fault) => wrong_run::run(fault, lent.slices(), budget, stop, met).packed(),
    }
}

pub fn take_back(lent: &mut Lent, steps: u64) -> u64 {
    let met = &mut Kept::default();
    match fault() {
        None => archive::take_back(lent, steps),
        Some(fault) => wrong_back::take_back(fault, lent.slices(), steps, met).packed(),
    }
}

pub fn last_write(lent: &mut Lent, address: u64, answer: &mut [u8]) -> u64 {
    let slices = lent.slices();
    match fault() {
        None => {
            let Slices { image, ram, paper, journal, index, .. } = slices;
            lavushmir::last_write(image, ram, paper, journal, index, address, answer)
        }
        Some(fault) => wrong_ask::ask(fault, slices, address, answer).packed(),
    }
}
