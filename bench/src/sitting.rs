//! Every case, again and again, and the middle of what was seen.

use crate::rounds::{times, Case, Times};
use std::process::exit;

/// Odd, so that there is a middle.
pub const REPETITIONS: usize = 5;

/// The medians of one case.
pub struct Figures {
    pub archive: f64,
    pub reference: f64,
    /// Of the repetitions' own ratios, not of the two medians.
    pub ratio: f64,
    pub filling: f64,
    /// The archive's time to that of filling the same bytes.
    pub to_filling: f64,
}

fn median(seen: &[Times], of: fn(&Times) -> f64) -> f64 {
    let mut values: Vec<f64> = seen.iter().map(of).collect();
    values.sort_by(f64::total_cmp);
    values[values.len() / 2]
}

fn figures(seen: &[Times]) -> Figures {
    Figures {
        archive: median(seen, |times| times.archive),
        reference: median(seen, |times| times.reference),
        ratio: median(seen, |times| times.archive / times.reference),
        filling: median(seen, |times| times.filling),
        to_filling: median(seen, |times| times.archive / times.filling),
    }
}

/// A repetition is all cases, each for some rounds: what slows the host for a
/// while slows one repetition of many cases, and no median.
pub fn sit(what: &str, cases: &[Case], rounds: usize) -> Vec<Figures> {
    let mut seen: Vec<Vec<Times>> = cases.iter().map(|_| Vec::new()).collect();
    for repetition in 1..=REPETITIONS {
        eprintln!("{what}: repetition {repetition} of {REPETITIONS}, {} runs", cases.len());
        for (case, seen) in cases.iter().zip(&mut seen) {
            seen.push(times(case, rounds).unwrap_or_else(|wrong| {
                println!("DIFFERENT: {}, {} slots: {wrong}", case.name, case.slots);
                exit(1)
            }));
        }
    }
    seen.iter().map(|seen| figures(seen)).collect()
}
