//! A take-back that is wrong on purpose: the reference's, with one fault.

use crate::faults::Fault::{self, *};
use crate::lent::Slices;
use crate::record::{self, BRANCH_ADDRESS, SLOT_FLAG};
use reference::layout::RECORD_BYTES;
use reference::{decode, encode, Answer, Machine};

const BD: u32 = 1 << 31;

/// The journal as a take-back sees it that does not judge the slot.
fn mended(fault: Fault, journal: &[u8]) -> Vec<u8> {
    let mut journal = journal.to_vec();
    for slot in journal.chunks_exact_mut(RECORD_BYTES) {
        let flag = record::word(slot, SLOT_FLAG);
        match fault {
            BackTakesAnyFlag if flag > 1 => record::set(slot, SLOT_FLAG, 1),
            BackTakesAnAddressAlone if flag == 0 => record::set(slot, BRANCH_ADDRESS, 0),
            BackRefusesSlots if flag == 1 => record::set(slot, SLOT_FLAG, 2),
            _ => {}
        }
    }
    journal
}

fn spoil(fault: Fault, before: &Machine, after: &mut Machine) {
    match fault {
        BackKeepsTheSlot => {
            (after.slot_flag, after.branch_address) = (before.slot_flag, before.branch_address);
        }
        BackForgetsTheSlot => (after.slot_flag, after.branch_address) = (0, 0),
        BackForgetsTheAddress => after.branch_address = 0,
        BackForgetsBd => after.cause &= !BD,
        _ => {}
    }
}

pub fn take_back(fault: Fault, lent: Slices, steps: u64) -> Answer {
    let Slices { image, ram, paper, journal, index, .. } = lent;
    let before = decode(image);
    let answer =
        reference::diskless::take_back(image, ram, paper, &mended(fault, journal), index, steps);
    if answer.number == 0 && steps > 0 {
        let mut after = decode(image);
        spoil(fault, &before, &mut after);
        encode(&after, image);
    }
    answer
}
