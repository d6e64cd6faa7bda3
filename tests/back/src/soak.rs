//! One long run in calls of any size with take-backs between them, on the
//! longest journal: equal to the reference after every call, and at the end to
//! a reference that never went back.

use crate::call::Call;
use crate::dice::Dice;
use crate::lent::empty_index;
use crate::pool::Pool;
use crate::program::{bootstrap_rom, execution_rom, user_program, FRAMES};
use crate::report::different;
use crate::scene::STOPS;
use crate::sides::{Both, Sides};
use crate::starts::LONGEST;
use crate::stepped::Stepped;
use reference::layout::RECORD_BYTES;
use reference::{Answer, IMAGE_BYTES, TWO_MATCHES};

const PROGRESS: u64 = 10_000_000;
const MOST_BUDGET: u64 = 1_000_000;
const RESET: [u64; 3] = [1, 4_001, 0xFF];

#[derive(Default)]
pub struct Met {
    pub runs: u64,
    pub steps: u64,
    pub longest_runs: u64,
    pub stopped: u64,
    pub take_backs: u64,
    pub net: u64,
    pub stepped: Stepped,
}

fn start(dice: &mut Dice) -> Call {
    let pool = Pool::new(dice);
    let mut ram = pool.bytes(dice, 4_096 * FRAMES);
    let program = user_program();
    ram[..program.len()].copy_from_slice(&program);
    Call {
        image: vec![0; IMAGE_BYTES],
        execution: execution_rom(),
        bootstrap: bootstrap_rom(),
        ram,
        paper: pool.bytes(dice, 65_536),
        journal: pool.bytes(dice, RECORD_BYTES * LONGEST),
        index: empty_index(4_096 * FRAMES),
        budget: 0,
        stop: 0,
    }
}

/// Mostly long; those that stop at exceptions come to an end soon.
fn budget(dice: &mut Dice) -> u64 {
    match dice.below(8) {
        0 => MOST_BUDGET,
        1 => u64::from(dice.below(1_000)),
        2 => u64::from(dice.below(100_000)),
        _ => u64::from(dice.between(0, MOST_BUDGET as u32)),
    }
}

fn count(dice: &mut Dice, on_hand: u32) -> u32 {
    match dice.below(4) {
        0 => on_hand,
        1 => dice.between(0, on_hand.min(100)),
        _ => dice.between(0, on_hand),
    }
}

fn checked(seed: u64, met: &Met, what: String, both: Both) -> Answer {
    let lines = match both {
        Ok(answer) if answer.reason == TWO_MATCHES => vec!["met two matches".to_string()],
        Ok(answer) if answer.number == 0 => return answer,
        Ok(answer) => vec![format!("refused with {}", answer.number)],
        Err(lines) => lines,
    };
    let place = format!("seed {seed}, after {} steps: {what}", met.steps);
    different("the soak", &[vec![place], lines].concat())
}

/// Until so many steps stand, those taken back not counted.
pub fn compare(seed: u64, steps: u64) -> Met {
    let dice = &mut Dice::new(seed);
    let mut met = Met::default();
    let mut sides = Sides::new(start(dice));
    let both = sides.reset(RESET);
    checked(seed, &met, "reset".to_string(), both);
    let began = sides.beginning();
    while met.net < steps {
        let stop = if dice.chance(8) { dice.pick(&STOPS) } else { 0 };
        let budget = budget(dice);
        let both = sides.run(budget, stop);
        let answer = checked(seed, &met, format!("run of {budget}"), both);
        let before = met.steps;
        met.runs += 1;
        met.longest_runs += u64::from(u64::from(answer.steps) == MOST_BUDGET);
        met.stopped += u64::from(answer.reason == reference::EXCEPTION);
        met.steps += u64::from(answer.steps);
        met.net += u64::from(answer.steps);
        if before / PROGRESS != met.steps / PROGRESS {
            println!("soak: {} million steps run, {} stand", met.steps / 1_000_000, met.net);
        }
        for _ in 0..dice.below(3) {
            let machine = sides.machine();
            let count = count(dice, machine.on_hand);
            let both = sides.take_back(count.into());
            checked(seed, &met, format!("take-back of {count}"), both);
            met.take_backs += 1;
            met.net -= u64::from(count);
            met.stepped.count(&machine, &sides.theirs.journal, count);
        }
    }
    if !sides.is_behind(&began, met.net) {
        let what = format!("seed {seed}: not the state of {} steps from the reset", met.net);
        different("the soak", &[what]);
    }
    met
}
