//! What the runs and histories have met.

use crate::halts::HALTS;
use crate::kinds::{KindMet, TAKEN};
use crate::least::{lowest, Least};
use crate::sight::Sight;

pub const RUNS: u64 = 200_000;
pub const HISTORIES: u64 = 20_000;

pub struct Met {
    pub runs: u64,
    pub steps: u64,
    pub by_reason: [u64; 4],
    halts: Vec<u64>,
    taken: Vec<u64>,
    lowest: [u64; 16],
    second: [u64; 16],
    pub by_slots: [u64; 3],
    pub again: u64,
    pub again_with_none: u64,
    pub just_that_budget: u64,
    pub behind_a_stop: u64,
    pub histories: u64,
    pub history_runs: u64,
    pub history_halts: u64,
    pub take_backs: u64,
    pub refused: u64,
    pub from_halt: u64,
    pub all_from_halt: u64,
    pub to_the_halt_again: u64,
    pub halted_again: u64,
    pub round_the_journal: u64,
}

impl Met {
    pub fn new() -> Met {
        Met {
            runs: 0,
            steps: 0,
            by_reason: [0; 4],
            halts: vec![0; HALTS.len()],
            taken: vec![0; TAKEN.len()],
            lowest: [0; 16],
            second: [0; 16],
            by_slots: [0; 3],
            again: 0,
            again_with_none: 0,
            just_that_budget: 0,
            behind_a_stop: 0,
            histories: 0,
            history_runs: 0,
            history_halts: 0,
            take_backs: 0,
            refused: 0,
            from_halt: 0,
            all_from_halt: 0,
            to_the_halt_again: 0,
            halted_again: 0,
            round_the_journal: 0,
        }
    }

    pub fn see(&mut self, sight: &Sight) {
        if !sight.remarkable() {
            return;
        }
        count(&mut self.taken, &TAKEN, sight);
        if let Some(halt) = sight.halt() {
            count(&mut self.halts, &HALTS, sight);
            self.lowest[halt.lowest()] += 1;
            self.second[halt.second()] += 1;
            self.by_slots[sight.call.slots().min(2)] += 1;
        }
    }

    pub fn print(&self, least: &mut Least) {
        println!("doubles: runs");
        least.met("runs", self.runs, RUNS);
        least.met("steps taken", self.steps, 350_000);
        let reasons = ["the budget", "an exception", "two matches"];
        least.each(&reasons, "ended by", &self.by_reason[1..], &[60_000, 30_000, 30_000]);
        println!("doubles: halts");
        least.kinds(&self.halts, &HALTS);
        least.met(
            "the lowest match seen least, of entries 0 to 14",
            lowest(&self.lowest[..15]),
            150,
        );
        least.met(
            "the second match seen least, of entries 1 to 15",
            lowest(&self.second[1..]),
            1_000,
        );
        let slots = ["no slots", "one slot", "more slots"];
        least.each(&slots, "halts with", &self.by_slots, &[5_000, 5_000, 20_000]);
        least.met("second runs, stopped at once", self.again, 10_000);
        least.met("second runs of budget 0", self.again_with_none, 2_500);
        least.met("runs of just that budget, to the same bytes", self.just_that_budget, 4_000);
        least.met("stopped at an exception, and halted in the next run", self.behind_a_stop, 1_000);
        println!("doubles: two matches or nearly, and no halt");
        least.kinds(&self.taken, &TAKEN);
        println!("doubles: histories");
        least.met("histories", self.histories, HISTORIES);
        least.met("runs", self.history_runs, 40_000);
        least.met("halts", self.history_halts, 10_000);
        least.met("take-backs", self.take_backs, 15_000);
        least.met("refused with 7", self.refused, 1_500);
        least.met("from a halt", self.from_halt, 3_000);
        least.met("of all on hand, from a halt", self.all_from_halt, 1_500);
        least.met("back to the halt by the budget", self.to_the_halt_again, 1_000);
        least.met("back to the halt by the halt", self.halted_again, 2_000);
        least.met("halts behind a round of the journal", self.round_the_journal, 700);
    }
}

fn count(counts: &mut [u64], kinds: &[KindMet], sight: &Sight) {
    for (count, (_, _, met)) in counts.iter_mut().zip(kinds) {
        *count += u64::from(met(sight));
    }
}
