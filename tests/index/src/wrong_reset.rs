//! The reference's reset, with or without a fault.

use crate::entry::ENTRY_BYTES;
use crate::faults::Fault::{self, *};
use crate::lent::Slices;
use reference::Answer;

const MOST: usize = 4_096 * ENTRY_BYTES;

/// Whether a fault takes an index of a length that is refused.
fn takes(fault: Fault, length: usize) -> bool {
    match fault {
        ResetJudgesNoIndex => true,
        ResetTakesAnEmptyIndex => length == 0,
        ResetTakesHalfAnEntry => length % ENTRY_BYTES == ENTRY_BYTES / 2,
        ResetTakesOneFrameMore => length == MOST + ENTRY_BYTES,
        _ => false,
    }
}

pub fn reset(fault: Fault, lent: Slices, [scale, delay, installed]: [u64; 3]) -> Answer {
    let Slices { image, index, .. } = lent;
    let before = index.to_vec();
    let mut answer = reference::diskless::reset(image, index, scale, delay, installed);
    let wrong = index.is_empty() || index.len() % ENTRY_BYTES != 0 || index.len() > MOST;
    if answer.number == 10 && takes(fault, index.len()) {
        answer = reference::diskless::reset(image, &mut [0; ENTRY_BYTES], scale, delay, installed);
        index.fill(0);
    }
    match fault {
        ResetJudgesTheIndexFirst if wrong => return Answer::refused(10),
        ResetLeavesTheIndex => index.copy_from_slice(&before),
        ResetClearsOneEntry if answer.number == 0 => {
            index[ENTRY_BYTES..].copy_from_slice(&before[ENTRY_BYTES..]);
        }
        ResetClearsWhereItRefuses => index.fill(0),
        _ => {}
    }
    answer
}
