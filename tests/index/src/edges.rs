//! All refusals: every combination of numbers, and every value at an edge alone.

use crate::dice::Dice;
use crate::met::Met;
use crate::pool::Pool;
use crate::program;
use crate::refusals::{one, Trial, ASK, BACK, CALLS, RESET, RUN, WRONG_ANSWERS};
use crate::report::different;

const MOST_FRAMES: u64 = 4_096;

fn alone(call: usize, right: bool, row: u8) -> Trial {
    Trial { call, rows: if right { Vec::new() } else { vec![row] }, ..Trial::default() }
}

/// Lengths of the index at a reset.
fn at_reset() -> Vec<Trial> {
    let right = [16, 32, 48, 4_096, 65_520, 65_536].map(|length| (length, true));
    let wrong = [0, 1, 4, 8, 12, 15, 17, 24, 31, 33, 65_535, 65_537, 65_544, 65_552, 131_072];
    let all = right.into_iter().chain(wrong.map(|length| (length, false)));
    all.map(|(length, fits)| Trial { index: Some(length), ..alone(RESET, fits, 10) }).collect()
}

/// Lengths of the index beside RAM, in the other calls.
fn beside_ram() -> Vec<Trial> {
    let mut trials = Vec::new();
    for call in [RUN, BACK, ASK] {
        for frames in [1, 2, 3, MOST_FRAMES] {
            let due = 16 * frames as usize;
            let wrong =
                [0, 1, 16, 32, 48, 64, 65_536, 65_552, due - 16, due - 1, due + 1, due + 16];
            for length in [&[due][..], &wrong].concat() {
                let ram = Some(4_096 * frames);
                let fits = alone(call, length == due, 10);
                trials.push(Trial { ram, index: Some(length), ..fits });
            }
        }
    }
    trials
}

fn addresses() -> Vec<Trial> {
    let (start, bytes) = (u64::from(program::RAM), 2 * 4_096);
    let right = [0, 4, 8, 0xFFC, 0x1000, bytes - 4].map(|place| (start + place, true));
    let near = [start - 4, start - 1, start + 1, start + 2, start + 3, start + bytes - 3];
    let behind = [start + bytes - 1, start + bytes, start + bytes + 4, 0, 4, 0x1FC0_0000];
    let far = [start | 1 << 32, start << 1, start | 1 << 63, u64::MAX - 3, u64::MAX, 1 << 63];
    let wrong = [near, behind, far].concat().into_iter().map(|address| (address, false));
    let all = right.into_iter().chain(wrong);
    let trial = |(address, fits)| Trial {
        ram: Some(bytes),
        address: Some(address),
        ..alone(ASK, fits, 11)
    };
    all.map(trial).collect()
}

fn answers() -> Vec<Trial> {
    let wrong = WRONG_ANSWERS.iter().map(|length| (*length, false));
    let all = [(16, true)].into_iter().chain(wrong);
    all.map(|(length, fits)| Trial { answer: Some(length), ..alone(ASK, fits, 12) }).collect()
}

/// What a record of a RAM word keeps behind its old value.
fn distances() -> Vec<Trial> {
    let right = [0, 1, 2, 17, 255, 256, 65_535].map(|distance| (distance, true));
    let wrong = [65_536, 65_537, 0x1_FFFF, 1 << 24, 1 << 31, u32::MAX];
    let all = right.into_iter().chain(wrong.map(|distance| (distance, false)));
    let both = all.flat_map(|(distance, fits)| [BACK, ASK].map(|call| (call, distance, fits)));
    both.map(|(call, distance, fits)| Trial { distance: Some(distance), ..alone(call, fits, 8) })
        .collect()
}

pub fn all() -> Vec<Trial> {
    [at_reset(), beside_ram(), addresses(), answers(), distances()].concat()
}

fn tried(dice: &mut Dice, pool: &Pool, trial: &Trial, what: &str, met: &mut Met) {
    if let Err(lines) = one(dice, pool, trial, met) {
        let place = format!("{}, numbers that apply {:?}", CALLS[trial.call].0, trial.rows);
        different(what, &[vec![place], lines].concat());
    }
}

pub fn compare(seed: u64, pool: &Pool, each: u64, met: &mut Met) {
    let dice = &mut Dice::new(seed);
    for (call, (_, rows)) in CALLS.iter().enumerate() {
        for bits in 0..1 << rows.len() {
            let trial = Trial::of(call, bits);
            for _ in 0..each {
                let what = format!("seed {seed}, a refusal, bits {bits:#b}");
                tried(dice, pool, &trial, &what, met);
            }
            met.combinations[call] += 1;
        }
    }
    for (number, trial) in all().iter().enumerate() {
        let costly = trial.ram == Some(4_096 * MOST_FRAMES);
        for _ in 0..if costly { 1 } else { 4 } {
            tried(dice, pool, trial, &format!("seed {seed}, value {number}"), met);
        }
        met.values += 1;
    }
}
