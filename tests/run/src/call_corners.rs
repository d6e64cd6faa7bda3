//! What is lent and how a run ends, where a slip would hide: what each is, and
//! how often 200,000 runs have to meet it.

use crate::call::{Call, Outcome};

pub type CallCorner = (&'static str, u64, fn(&Call, &Outcome) -> bool);

const EXCEPTION: u64 = 2;
const TWO_MATCHES: u64 = 3;

fn stopped(outcome: &Outcome) -> bool {
    outcome.reason() == EXCEPTION
}

#[rustfmt::skip]
pub const CALLS: [CallCorner; 22] = [
    ("runs with budget 0", 500, |call, _| call.budget == 0),
    ("runs with budget 1", 10_000, |call, _| call.budget == 1),
    ("runs with budget 1,000,000", 500, |call, _| call.budget == 1_000_000),
    ("runs of 999,999 or 1,000,000 steps", 2, |_, outcome| outcome.steps() >= 999_999),
    ("runs that ended by the budget", 50_000, |_, outcome| outcome.reason() == 1),
    ("runs that ended by an exception", 50_000, |_, outcome| stopped(outcome)),
    ("runs that ended by two matches", 2_000, |_, outcome| outcome.reason() == TWO_MATCHES),
    ("runs with both at the last step", 5_000, |call, outcome| {
        stopped(outcome) && outcome.steps() == call.budget
    }),
    ("runs stopped by a flag that is not 1", 20_000, |call, outcome| {
        call.stop > 1 && stopped(outcome)
    }),
    ("runs stopped by a flag past 32 bits", 10_000, |call, outcome| {
        call.stop as u32 == 0 && stopped(outcome)
    }),
    ("runs without a journal", 10_000, |call, _| call.slots() == 0),
    ("runs with one slot", 10_000, |call, _| call.slots() == 1),
    ("runs with 2, 3, 17 or 64 slots", 50_000, |call, _| [2, 3, 17, 64].contains(&call.slots())),
    ("runs with the longest journal", 5, |call, _| call.slots() == 32_768),
    ("runs with one frame of RAM", 50_000, |call, _| call.ram.len() == 4_096),
    ("runs with 2 to 4 frames", 50_000, |call, _| (8_192..=16_384).contains(&call.ram.len())),
    ("runs with more RAM", 100, |call, _| call.ram.len() > 16_384),
    ("runs with the most RAM", 1, |call, _| call.ram.len() == 4_096 * 4_096),
    ("runs without paper", 10_000, |call, _| call.paper.is_empty()),
    ("runs with 8 bytes of paper", 10_000, |call, _| call.paper.len() == 8),
    ("runs with the most paper", 500, |call, _| call.paper.len() == 65_536),
    ("runs with a ROM too short for a vector", 5_000, |call, _| {
        call.execution.len() <= 0x80 || call.bootstrap.len() <= 0x180
    }),
];
