//! The archive's calls, or, while a fault is set, calls that are wrong on purpose
//! in their place.

use crate::archive;
use crate::fault_now::fault;
use crate::lavushmir;
use crate::lent::Lent;
use crate::{wrong_back, wrong_convert, wrong_reset};

pub fn reset(lent: &mut Lent, parameters: [u64; 3]) -> u64 {
    match fault() {
        None => archive::reset(lent, parameters),
        Some(fault) => wrong_reset::reset(fault, lent.slices(), parameters),
    }
}

pub fn run(lent: &mut Lent, budget: u64, stop: u64) -> u64 {
    match fault() {
        None => archive::run(lent, budget, stop),
        Some(fault) => lent.slices().run(fault, budget, stop).packed(),
    }
}

pub fn take_back(lent: &mut Lent, steps: u64) -> u64 {
    match fault() {
        None => archive::take_back(lent, steps),
        Some(fault) => wrong_back::take_back(fault, lent.slices(), steps).packed(),
    }
}

pub fn convert(old: &[u8], image: &mut [u8], paper: &[u8], journal: &[u8]) -> u64 {
    match fault() {
        None => lavushmir::convert(old, image, paper, journal),
        Some(fault) => wrong_convert::convert(fault, old, image, paper, journal).packed(),
    }
}
