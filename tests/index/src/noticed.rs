//! Whether each call that is wrong on purpose is noticed.

use crate::dice::Dice;
use crate::edges;
use crate::fault_now::set_fault;
use crate::faults::{Fault, FAULTS};
use crate::histories::{self, Size};
use crate::met::Met;
use crate::named_faults::words;
use crate::pool::Pool;
use crate::refusals::{self, Trial, CALLS};

const SEED: u64 = 1;
const MOST: u64 = 2_000;
/// Refusals tried beside each history.
const REFUSALS: u64 = 4;

/// What shows only on long journals.
const LONG: [Fault; 2] = [Fault::DistanceOfOneByte, Fault::DistanceOfFourteenBits];
const MOST_LONG: u64 = 20;

/// Any combination of numbers that apply, or a value at an edge.
fn trial(dice: &mut Dice, edges: &[Trial]) -> Trial {
    if dice.chance(4) {
        return edges[dice.below(edges.len() as u32) as usize].clone();
    }
    let call = dice.below(CALLS.len() as u32) as usize;
    Trial::of(call, dice.below(1 << CALLS[call].1.len()))
}

fn refusal(number: u64, pool: &Pool, edges: &[Trial], met: &mut Met) -> bool {
    let dice = &mut Dice::of(!SEED, number);
    let trial = trial(dice, edges);
    refusals::one(dice, pool, &trial, met).is_err()
}

fn history(number: u64, pool: &Pool, size: Size, met: &mut Met) -> bool {
    histories::one(&mut Dice::of(SEED, number), pool, size, met).is_err()
}

/// The first history or refusal in which it was.
fn noticed(fault: Fault, pool: &Pool, edges: &[Trial]) -> Option<String> {
    set_fault(Some(fault));
    let met = &mut Met::default();
    if LONG.contains(&fault) {
        let first = (0..MOST_LONG).find(|number| history(*number, pool, Size::Long, met));
        set_fault(None);
        return first.map(|number| format!("long history {number}"));
    }
    let found = (0..MOST).find_map(|number| {
        if history(number, pool, Size::Usual, met) {
            return Some(format!("history {number}"));
        }
        let mut refusals = REFUSALS * number..REFUSALS * (number + 1);
        let first = refusals.find(|number| refusal(*number, pool, edges, met));
        first.map(|number| format!("refusal {number}"))
    });
    set_fault(None);
    found
}

/// How many there are, where all are noticed and the right one is not.
pub fn all(pool: &Pool) -> Option<usize> {
    let costly = |trial: &Trial| trial.ram.map_or(false, |bytes| bytes > 1 << 20);
    let edges: Vec<Trial> = edges::all().into_iter().filter(|it| !costly(it)).collect();
    let mut all = true;
    for fault in FAULTS {
        let name = words(fault);
        match (noticed(*fault, pool, &edges), *fault == Fault::NotWrong) {
            (None, true) => println!("index: not noticed, and not wrong"),
            (Some(place), true) => {
                println!("index: NOTICED in {place}, though not wrong");
                all = false;
            }
            (Some(place), false) => println!("index: noticed in {place}: {name}"),
            (None, false) => {
                println!("index: NOT NOTICED: {name}");
                all = false;
            }
        }
    }
    all.then_some(FAULTS.len() - 1)
}
