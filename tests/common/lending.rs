//! The archive's calls on what is lent, each with its packed answer.

use crate::lavushmir;
use crate::lent::{Lent, Slices};

pub fn reset(lent: &mut Lent, [time_scale, delay, installed]: [u64; 3]) -> u64 {
    let Slices { image, index, .. } = lent.slices();
    lavushmir::reset(image, index, time_scale, delay, installed)
}

pub fn run(lent: &mut Lent, budget: u64, stop: u64) -> u64 {
    let Slices { image, execution, bootstrap, ram, paper, journal, index } = lent.slices();
    lavushmir::run(image, execution, bootstrap, ram, paper, journal, index, budget, stop)
}

pub fn take_back(lent: &mut Lent, steps: u64) -> u64 {
    let Slices { image, ram, paper, journal, index, .. } = lent.slices();
    lavushmir::take_back(image, ram, paper, journal, index, steps)
}
