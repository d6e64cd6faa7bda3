//! What all runs together have met.

use crate::session::Outcome;

#[derive(Default)]
pub struct Totals {
    runs: u64,
    steps: u64,
    calls: u64,
    ticks: u64,
    misses: u64,
    ticks_in_slots: u64,
    misses_in_slots: u64,
}

impl Totals {
    pub fn add(&mut self, outcome: &Outcome) {
        self.runs += 1;
        self.steps += outcome.steps;
        self.calls += outcome.calls;
        self.ticks += u64::from(outcome.station.ticks());
        self.misses += u64::from(outcome.station.misses());
        for met in outcome.met.iter().filter(|met| met.in_slot) {
            let count = if met.is_interrupt() {
                &mut self.ticks_in_slots
            } else {
                &mut self.misses_in_slots
            };
            *count += 1;
        }
    }

    /// Interrupts and misses between a branch and its slot are what filled slots
    /// are compiled for.
    pub fn met_slots(&self) -> bool {
        self.ticks_in_slots > 0 && self.misses_in_slots > 0
    }

    pub fn print(&self) {
        let Totals { runs, steps, calls, ticks, misses, ticks_in_slots, misses_in_slots } = self;
        println!("  {runs} runs, {steps} steps in {calls} calls");
        println!("  {ticks} timer interrupts, {ticks_in_slots} of them in a branch's slot");
        println!("  {misses} TLB misses, {misses_in_slots} of them in a branch's slot");
    }
}
