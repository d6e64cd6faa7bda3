//! Damaged and random packets for the stub of gdb, `station_gdb_turn`.
//!
//! `packets [INPUTS [SEED]]`. Exit 0: all as it must be, all counts met, and every
//! stub that is wrong on purpose noticed; 1: not so.
//! `packets write INPUTS SEED FILE` writes inputs for the program lavushmir-gdb, up
//! to 30 for a session: what a session gets has its length before it, four bytes, the
//! lowest first.
//!
//! For every input, whatever it is: each turn returns, wants what include/station.h
//! names, uses no more bytes than were sent and says no more than there is room for;
//! no byte beside a lent buffer is touched, and none of what is lent for reading is
//! written; after some turns more input is wanted or the session ends, and a full
//! buffer is never left full.
//!
//! From a clean start, with buffers of the lengths that the header asks for: exactly
//! one packet with a right sum gets a reply with a right sum, which comes before more
//! input is wanted, with `+` before it as long as gdb has not asked for none; one with
//! a wrong sum gets `-`; one that can not be taken apart (an escape with nothing
//! behind it, a run's length) gets either. Whatever comes, what is said is whole packets. Several
//! packets, halves of them and bytes between them are not judged further. The same
//! bytes in parts, also one by one, have the same outcome.

#[allow(dead_code)]
#[path = "../../common/arguments.rs"]
mod arguments;
#[allow(dead_code)]
#[path = "../../common/dice.rs"]
mod dice;
#[path = "../../common/named_faults.rs"]
mod named_faults;
#[allow(dead_code)]
#[path = "../../common/packet.rs"]
mod packet;
#[allow(dead_code)]
#[path = "../../common/paged.rs"]
mod paged;
#[path = "../../common/stub.rs"]
mod stub;

mod damage;
mod faults;
mod history;
mod judge;
mod kinds;
mod met;
mod noticed;
mod session;
mod world;

use dice::Dice;
use faults::FAULTS;
use met::Met;
use std::panic::{catch_unwind, AssertUnwindSafe};
use std::process::exit;

const DEFAULT_INPUTS: u64 = 10_000;
const DEFAULT_SEED: u64 = 1;

/// Whether a packet in it may end the session: what comes behind is for the next one,
/// since nobody would hear it.
fn may_end(bytes: &[u8]) -> bool {
    let has = |word: &[u8]| bytes.windows(word.len()).any(|part| part == word);
    has(b"$k") || has(b"$D") || has(b"$vKill")
}

/// What one session gets, of at most `most` inputs, and how many these are.
fn for_session(dice: &mut Dice, most: u64) -> (Vec<u8>, u64) {
    let mut bytes = Vec::new();
    let least = most.min(dice.between(1, 30).into());
    for count in 1..=least {
        let input = damage::input(dice).bytes;
        bytes.extend(&input);
        if dice.chance(4) {
            bytes.extend(b"#00");
        }
        // Ends a run, if there is one.
        if dice.chance(2) {
            bytes.push(3);
        }
        if may_end(&input) {
            return (bytes, count);
        }
    }
    (bytes, least)
}

fn write(inputs: u64, seed: u64) {
    let file = std::env::args().nth(4).expect("a file to write to");
    let mut all = Vec::new();
    let (mut written, mut sessions) = (0, 0);
    while written < inputs {
        sessions += 1;
        let (bytes, count) = for_session(&mut Dice::of(seed, sessions), inputs - written);
        written += count;
        all.extend((bytes.len() as u32).to_le_bytes());
        all.extend(bytes);
    }
    std::fs::write(&file, all).expect("the file is written");
    println!("packets: for lavushmir-gdb: {written} inputs in {sessions} sessions");
}

fn main() {
    if std::env::args().nth(1).as_deref() == Some("write") {
        let inputs = arguments::argument(2, "number of inputs", 0);
        return write(inputs, arguments::argument(3, "seed", DEFAULT_SEED));
    }
    let inputs = arguments::argument(1, "number of inputs", DEFAULT_INPUTS);
    let seed = arguments::argument(2, "seed", DEFAULT_SEED);
    println!("packets: {inputs} inputs, seed {seed}");
    let met = &mut Met::default();
    let mut number = 0;
    while met.inputs < inputs {
        number += 1;
        let dice = &mut Dice::of(seed, number);
        let left = inputs - met.inputs;
        if catch_unwind(AssertUnwindSafe(|| history::live(dice, left, None, met))).is_err() {
            eprintln!("packets: wrong in session {number} of seed {seed}");
            exit(1);
        }
    }
    if !met.enough(inputs) {
        exit(1);
    }
    println!("packets: all as it must be");
    if !noticed::all() {
        exit(1);
    }
    println!("packets: all {} wrong stubs noticed", FAULTS.len());
}
