//! A reset that is wrong on purpose.

use crate::faults::Fault;
use crate::fields::{DISKS_INSTALLED, FIRST_WORD, SLOT_FLAG};
use crate::lent::Slices;

/// The bytes of the words that a careless reset leaves as they were.
fn left(fault: Fault, image: usize) -> std::ops::Range<usize> {
    let at = |word: usize| (FIRST_WORD + 4 * word).min(image);
    match fault {
        Fault::ResetLeavesTheSlot => at(SLOT_FLAG)..at(DISKS_INSTALLED),
        Fault::ResetLeavesTheDisks => at(DISKS_INSTALLED)..image,
        _ => 0..0,
    }
}

pub fn reset(fault: Fault, lent: Slices, [scale, delay, installed]: [u64; 3]) -> u64 {
    let Slices { image, index, .. } = lent;
    let before = image.to_vec();
    let answer = reference::diskless::reset(image, index, scale, delay, installed);
    let left = left(fault, image.len());
    image[left.clone()].copy_from_slice(&before[left]);
    answer.packed()
}
