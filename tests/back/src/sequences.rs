//! Random sequences of runs and take-backs: every byte beside the reference's
//! after every call, and at the end beside a machine that never went back.

use crate::dice::Dice;
use crate::pool::Pool;
use crate::scene::STOPS;
use crate::sequence::{Met, Sequence};
use crate::starts::{slots, start, Start, LONGEST};

const PROGRESS: u64 = 10_000;

pub const STARTS: [&str; 3] = ["a reset", "eight printers that finish together", "a scene"];
pub const SLOTS: [usize; 6] = [0, 1, 2, 3, 17, LONGEST];

fn position<T: PartialEq>(all: &[T], one: &T) -> usize {
    all.iter().position(|other| other == one).expect("one of the list")
}

fn budget(dice: &mut Dice, slots: u64) -> u64 {
    if slots > 100 {
        return match dice.below(8) {
            0 => slots - 1,
            1 => slots,
            2 => slots + 1,
            3 => slots + u64::from(dice.below(slots as u32)),
            _ => u64::from(dice.between(1, 20_000)),
        };
    }
    match dice.below(16) {
        0 => 0,
        1 | 2 => 1,
        3 => slots,
        4 => slots + 1,
        5 => 2 * slots + u64::from(dice.below(5)),
        6..=11 => u64::from(dice.between(2, 12)),
        12..=14 => u64::from(dice.between(13, 40)),
        _ => u64::from(dice.between(41, 250)),
    }
}

fn count(dice: &mut Dice, on_hand: u64) -> u64 {
    match dice.below(16) {
        0 => 0,
        1 | 2 => 1,
        3..=6 => on_hand,
        7 => on_hand + 1,
        8 => match dice.below(4) {
            0 => dice.pick(&[1 << 32, 1 << 63, u64::MAX, (1 << 32) - 1]),
            1 => dice.any_size(),
            _ => on_hand | 1 << dice.between(32, 63),
        },
        9 => on_hand.saturating_sub(1),
        _ => u64::from(dice.between(0, on_hand as u32)),
    }
}

fn one(dice: &mut Dice, pool: &Pool, what: String, met: &mut Met) {
    let slots = slots(dice);
    let Start { name, call, reset, lead } = start(dice, pool, slots);
    met.sequences += 1;
    met.by_start[position(&STARTS, &name)] += 1;
    met.by_slots[position(&SLOTS, &slots)] += 1;
    let what = format!("{what}, {slots} slots, from {name}");
    let mut sequence = Sequence::start(what, call, reset, met);
    for call in 0..dice.between(2, 10) {
        // Now and then with nothing run yet.
        if (call == 0 && !dice.chance(16)) || dice.chance(2) {
            let stop = if dice.chance(4) { dice.pick(&STOPS) } else { 0 };
            let lead = if call == 0 { lead } else { 0 };
            sequence.run(lead + budget(dice, slots as u64), stop);
        } else {
            let steps = count(dice, sequence.on_hand());
            sequence.take_back(steps);
        }
    }
    sequence.end();
}

pub fn compare(seed: u64, sequences: u64) -> Met {
    let pool = Pool::new(&mut Dice::new(seed));
    let mut met = Met::default();
    for number in 0..sequences {
        let what = format!("seed {seed}, sequence {number}");
        one(&mut Dice::of(seed, number), &pool, what, &mut met);
        if (number + 1) % PROGRESS == 0 {
            println!("back: {} sequences so far", number + 1);
        }
    }
    met
}
