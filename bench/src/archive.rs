//! The archive's run, with the reference's answer.

use crate::lavushmir;
use reference::Answer;

#[allow(clippy::too_many_arguments)]
pub fn run(
    image: &mut [u8],
    execution_rom: &[u8],
    bootstrap_rom: &[u8],
    ram: &mut [u8],
    paper: &mut [u8],
    journal: &mut [u8],
    index: &mut [u8],
    budget: u64,
    stop_at_exceptions: u64,
) -> Answer {
    let packed = lavushmir::run(
        image,
        execution_rom,
        bootstrap_rom,
        ram,
        paper,
        journal,
        index,
        budget,
        stop_at_exceptions,
    );
    let answer =
        Answer { number: packed as u8, reason: (packed >> 8) as u8, steps: (packed >> 32) as u32 };
    assert_eq!(answer.packed(), packed, "bits that have to be 0");
    answer
}
