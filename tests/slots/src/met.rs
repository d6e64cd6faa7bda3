//! What the runs, histories and conversions have met.

use crate::breaches::{Breach, BREACHES};
use crate::conversions::SORTS;
use crate::kinds::KINDS;
use crate::least::Least;
use crate::look::{Access, Kind};
use crate::runs::SPOILED;
use crate::sight::Sight;
use crate::words::{BRANCHES, JUMPS};
use reference::{Answer, Machine};

pub const RUNS: u64 = 200_000;
pub const HISTORIES: u64 = 50_000;
pub const CONVERSIONS: u64 = 100_000;

const ALL_BRANCHES: usize = JUMPS.len() + BRANCHES.len();

/// The last breaches are those of the disks, which no old image has.
const OLD_BREACHES: usize = BREACHES.len() - 4;

#[derive(Default)]
pub struct Met {
    runs: u64,
    steps: u64,
    by_reason: [u64; 4],
    began_in_slot: u64,
    began_elsewhere: u64,
    began_odd: u64,
    ended_in_slot: u64,
    pub spoiled: [u64; SPOILED.len()],
    kinds: Vec<u64>,
    taken: [u64; ALL_BRANCHES],
    not_taken: [u64; ALL_BRANCHES],
    in_slots: [u64; ALL_BRANCHES],
    halts_before_slots: [u64; 3],
    halts_elsewhere: u64,
    pub histories: u64,
    pub resets: u64,
    pub history_runs: u64,
    pub take_backs: u64,
    pub not_on_hand: u64,
    pub from_slot: u64,
    pub into_slot: u64,
    pub between_slots: u64,
    pub over_bd: u64,
    pub slot_records: u64,
    /// Refused and done.
    pub damaged: [u64; 2],
    pub conversions: u64,
    pub sorts: [u64; SORTS.len()],
    pub breaches: Vec<u64>,
    pub rows: [u64; 16],
    pub converted: [u64; 6],
    pub had_steps: u64,
    pub had_next_slot: u64,
    pub had_slot: u64,
    pub odd_journals: u64,
    pub had_bd: u64,
}

impl Met {
    pub fn new() -> Met {
        let (kinds, breaches) = (vec![0; KINDS.len()], vec![0; BREACHES.len()]);
        Met { kinds, breaches, ..Met::default() }
    }

    pub fn begin(&mut self, machine: &Machine) {
        let in_slot = machine.slot_flag == 1;
        let before = machine.pc.wrapping_sub(4);
        self.began_in_slot += u64::from(in_slot);
        self.began_elsewhere += u64::from(in_slot && machine.branch_address != before);
        self.began_odd += u64::from(in_slot && machine.pc % 4 != 0);
    }

    pub fn ran(&mut self, answer: Answer) {
        self.runs += 1;
        self.steps += u64::from(answer.steps);
        self.by_reason[answer.reason as usize] += 1;
    }

    pub fn end(&mut self, machine: &Machine) {
        self.ended_in_slot += u64::from(machine.slot_flag == 1);
    }

    pub fn see(&mut self, sight: &Sight) {
        for (count, (_, _, met)) in self.kinds.iter_mut().zip(&KINDS) {
            *count += u64::from(met(sight));
        }
        if let Some(kind) = sight.branch() {
            let counts = if sight.taken() { &mut self.taken } else { &mut self.not_taken };
            counts[kind] += 1;
            self.in_slots[kind] += u64::from(sight.in_slot());
        }
    }

    /// The run stopped before a step of this machine, which makes this access.
    pub fn halted(&mut self, machine: &Machine, access: Access) {
        if machine.slot_flag == 0 {
            self.halts_elsewhere += 1;
            return;
        }
        let place = match access.kind {
            Kind::Fetch => 0,
            Kind::Load => 1,
            Kind::Store => 2,
        };
        self.halts_before_slots[place] += 1;
    }

    pub fn print(&self, least: &mut Least) {
        self.print_runs(least);
        self.print_branches(least);
        println!("slots: steps in slots");
        for (count, (name, enough, _)) in self.kinds.iter().zip(&KINDS) {
            least.met(name, *count, *enough);
        }
        self.print_histories(least);
        self.print_conversions(least);
    }

    fn print_runs(&self, least: &mut Least) {
        println!("slots: runs");
        least.met("runs that were done", self.runs, RUNS * 15 / 16);
        least.met("steps taken", self.steps, 1_000_000);
        let reasons = ["the budget", "an exception", "two matches"];
        least.each(&reasons, "ended by", &self.by_reason[1..], &[50_000, 30_000, 5_000]);
        least.met("began in a slot", self.began_in_slot, 20_000);
        least.met("of a branch that is not the word before", self.began_elsewhere, 10_000);
        least.met("with PC no multiple of 4", self.began_odd, 1_000);
        least.met("ended in a slot", self.ended_in_slot, 10_000);
        for (name, count) in SPOILED.iter().zip(self.spoiled) {
            least.met(format!("refused with 5: {name}"), count, 500);
        }
        let kinds = ["a fetch", "a load", "a store"];
        let counts = &self.halts_before_slots;
        least.each(&kinds, "halts before a slot by", counts, &[1_000, 300, 300]);
        least.met("other halts", self.halts_elsewhere, 1_000);
    }

    fn print_branches(&self, least: &mut Least) {
        println!("slots: branches and jumps executed: all taken, not taken, in slots");
        for (kind, name) in JUMPS.iter().chain(&BRANCHES).enumerate() {
            least.met(format!("{name}, taken"), self.taken[kind], 2_000);
            if kind >= JUMPS.len() {
                least.met(format!("{name}, not taken"), self.not_taken[kind], 2_000);
            }
            least.met(format!("{name}, in a slot"), self.in_slots[kind], 1_000);
        }
    }

    fn print_histories(&self, least: &mut Least) {
        println!("slots: histories");
        least.met("histories", self.histories, HISTORIES);
        least.met("that began with a reset", self.resets, 5_000);
        least.met("runs", self.history_runs, 100_000);
        least.met("take-backs", self.take_backs, 60_000);
        least.met("refused with 7", self.not_on_hand, 8_000);
        least.met("from a slot", self.from_slot, 8_000);
        least.met("into a slot", self.into_slot, 8_000);
        least.met("from a slot into a slot", self.between_slots, 2_000);
        least.met("over a change of BD", self.over_bd, 5_000);
        least.met("records of slots taken back", self.slot_records, 30_000);
        least.met("another flag or address in a record: refused with 8", self.damaged[0], 1_000);
        least.met("another flag or address in a record: given back", self.damaged[1], 1_000);
    }

    fn print_conversions(&self, least: &mut Least) {
        println!("slots: conversions");
        least.met("conversions", self.conversions, CONVERSIONS);
        for (name, count) in SORTS.iter().zip(self.sorts) {
            least.met(name, count, CONVERSIONS / 10);
        }
        for number in [0, 3, 4, 5] {
            least.met(format!("answered {number}"), self.converted[number], 2_000);
        }
        least.met("done, with steps on hand before", self.had_steps, 5_000);
        least.met("done, with a next slot that is not 0", self.had_next_slot, 5_000);
        least.met("done, in a slot", self.had_slot, 5_000);
        least.met("done, with an odd number of old slots", self.odd_journals, 5_000);
        least.met("done, with BD on", self.had_bd, 5_000);
        for (wrong, count) in self.rows.iter().enumerate() {
            let names = ["paper", "journal", "old image", "new image"];
            let wrong: Vec<_> = (0..4).filter(|bit| wrong >> bit & 1 != 0).collect();
            let wrong: Vec<_> = wrong.into_iter().map(|bit| names[bit]).collect();
            least.met(format!("wrong: [{}]", wrong.join(", ")), *count, 400);
        }
        let all: &[Breach] = &BREACHES;
        for ((name, _), count) in all[..OLD_BREACHES].iter().zip(&self.breaches) {
            least.met(format!("5, {name}"), *count, 15);
        }
    }
}
