//! The same run on both sides, in turn, and the same bytes filled.

use crate::archive;
use crate::cpu_time;
use crate::station::{Run, Station};
use reference::diskless::run_with_records;
use reference::layout::RECORD_BYTES;
use reference::{Answer, BUDGET_SPENT};
use std::hint::black_box;

/// The archive is side 0, the reference side 1.
const SIDES: [Run; 2] = [archive::run, run_with_records];

/// One run that both sides are timed on.
pub struct Case {
    pub name: String,
    pub slots: usize,
    pub steps: u64,
    /// Before the first step.
    pub start: Box<dyn Fn() -> Station>,
}

/// Nanoseconds a step, the least of some rounds.
#[derive(Clone, Copy)]
pub struct Times {
    pub archive: f64,
    pub reference: f64,
    /// Of filling as many bytes of the journal as the steps' records have.
    pub filling: f64,
}

/// Times one case; an error names what was not equal.
pub fn times(case: &Case, rounds: usize) -> Result<Times, String> {
    let start = (case.start)();
    // Both sides run in these buffers: with buffers of their own, one may have
    // better pages of the host's memory than the other.
    let mut work = start.clone();
    let mut ends = [start.clone(), start.clone()];
    let mut least = [f64::INFINITY; 3];
    for round in 0..rounds {
        for turn in 0..2 {
            let side = (round + turn) % 2;
            work.copy_from(&start);
            least[side] = least[side].min(run(&mut work, SIDES[side], case.steps)?);
            ends[side].copy_from(&work);
        }
        if let Some(part) = ends[0].differs_from(&ends[1]) {
            return Err(format!("{part} differs after round {round}"));
        }
        least[2] = least[2].min(fill(&mut work.journal, case.steps));
    }
    let [archive, reference, filling] = least;
    Ok(Times { archive, reference, filling })
}

fn run(station: &mut Station, run: Run, steps: u64) -> Result<f64, String> {
    let start = cpu_time::nanoseconds();
    let (answer, done) = station.run(run, steps);
    let spent = cpu_time::nanoseconds() - start;
    let wanted = Answer::done(BUDGET_SPENT, answer.steps);
    if answer != wanted || done != steps {
        return Err(format!("{done} steps of {steps} were done, the last answer was {answer:?}"));
    }
    Ok(spent / steps as f64)
}

/// Round and round the journal, as the records go.
fn fill(journal: &mut [u8], steps: u64) -> f64 {
    let mut left = if journal.is_empty() { 0 } else { steps as usize * RECORD_BYTES };
    let start = cpu_time::nanoseconds();
    while left > 0 {
        let now = left.min(journal.len());
        black_box(&mut journal[..now]).fill(black_box(left as u8));
        left -= now;
    }
    black_box(journal);
    (cpu_time::nanoseconds() - start) / steps as f64
}
