//! One call that is to be refused, or to be done though its neighbours are not.

use crate::call::Call;
use crate::dice::Dice;
use crate::difference::explain;
use crate::lengths::Lengths;
use crate::lent::empty_index;
use crate::pool::Pool;
use crate::report::different;
use crate::scene::STOPS;
use crate::valid::Case;
use crate::wild::fitted;
use crate::wrong::*;
use reference::layout::RECORD_BYTES;

const PC: usize = 33;

#[derive(Default)]
pub struct Counts {
    pub seed: u64,
    pub by_number: [u64; 7],
    /// Refused although a higher number applies too.
    pub several: u64,
    pub combinations: u64,
    pub edges: u64,
    pub breaches: Vec<u64>,
}

/// An image that keeps the rules with buffers of these lengths; its first step
/// is an exception, so that a large budget costs nothing.
pub fn image(dice: &mut Dice, values: &[u64; 7]) -> Case {
    let lengths = Lengths {
        ram: 4_096,
        execution: 4,
        bootstrap: 4,
        paper: values[PAPER].min(65_536) as u32,
        slots: (values[JOURNAL] as usize / RECORD_BYTES).min(32_768) as u32,
    };
    let mut case = fitted(dice, &lengths);
    case.words[PC] |= 1;
    case
}

pub fn lent(dice: &mut Dice, pool: &Pool, values: &[u64; 7], image: Vec<u8>) -> Call {
    let bytes = |dice: &mut Dice, place: usize| pool.bytes(dice, values[place] as usize);
    let short = values[BUDGET] < 10 && dice.chance(2);
    Call {
        image,
        execution: bytes(dice, EXECUTION),
        bootstrap: bytes(dice, BOOTSTRAP),
        ram: bytes(dice, RAM),
        paper: bytes(dice, PAPER),
        journal: bytes(dice, JOURNAL),
        index: empty_index(values[RAM] as usize),
        budget: values[BUDGET],
        stop: if short { 0 } else { dice.pick(&STOPS) },
    }
}

pub fn wrong_rows(values: &[u64; 7]) -> Vec<u8> {
    let pairs = CHOICES.iter().zip(values);
    pairs.filter(|(choices, value)| choices.wrong.contains(value)).map(|(c, _)| c.row).collect()
}

/// One call; `rows` are all the numbers that apply, from the lowest on.
pub fn one(call: &Call, rows: &[u8], what: &str, counts: &mut Counts) {
    let number = rows.first().copied().unwrap_or(0);
    let what = &format!("seed {}, refusals: {what}", counts.seed);
    let expected = call.by_reference(call.budget);
    if expected.number() != u64::from(number) {
        let line = format!("the reference answered {}, not {number}", expected.number());
        different("refusals", &[what.to_string(), line]);
    }
    let mut lent = call.lent();
    let answer = lent.run(call.budget, call.stop);
    let right = if number == 0 {
        answer == Ok(expected.answer) && lent.outcome(expected.answer) == expected
    } else {
        answer == Ok(u64::from(number)) && lent.touched().is_none()
    };
    if !right {
        explain(what, call);
    }
    counts.by_number[number as usize] += 1;
    counts.several += u64::from(rows.last().map_or(false, |last| *last > number));
}

pub fn with_values(dice: &mut Dice, pool: &Pool, values: &[u64; 7], counts: &mut Counts) {
    let mut image = image(dice, values).bytes();
    image.resize(values[IMAGE] as usize, 0);
    let call = lent(dice, pool, values, image);
    one(&call, &wrong_rows(values), &format!("lengths and budget {values:?}"), counts);
}
