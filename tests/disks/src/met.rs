//! What the runs, histories, damaged journals, refusals and resets have met.

use crate::damage::DAMAGES;
use crate::judge::{PLACES, WRONGS};
use crate::kinds::{Sight, KINDS};
use crate::least::Least;
use crate::refusals::ROWS;
use crate::rules::BROKEN;
use reference::{Answer, Machine};

#[derive(Default)]
pub struct Met {
    runs: u64,
    steps: u64,
    by_reason: [u64; 4],
    by_disks: [u64; 9],
    kinds: Vec<u64>,
    /// Not on the word that stood there, and on it too.
    pub halts: [u64; 2],
    pub histories: u64,
    pub taken_back: u64,
    /// By whether a disk is at work behind a take-back, and was before it.
    pub between: [u64; 4],
    pub given_back: [u64; 4],
    pub registers_back: u64,
    pub asked: [u64; 2],
    pub told_reads: u64,
    pub damages: Vec<u64>,
    pub clauses: Vec<u64>,
    pub places: [u64; 4],
    /// By the number answered.
    pub judged: [u64; 14],
    pub rows: [[u64; 14]; 3],
    pub rules: Vec<u64>,
    pub resets: [u64; 11],
}

impl Met {
    pub fn new() -> Met {
        Met {
            kinds: vec![0; KINDS.len()],
            damages: vec![0; DAMAGES.len()],
            clauses: vec![0; WRONGS.len()],
            rules: vec![0; BROKEN.len()],
            ..Met::default()
        }
    }

    pub fn ran(&mut self, answer: Answer, before: &Machine) {
        self.runs += 1;
        self.steps += u64::from(answer.steps);
        self.by_reason[answer.reason as usize] += 1;
        self.by_disks[before.disks_installed.count_ones() as usize] += 1;
    }

    pub fn see(&mut self, sight: &Sight) {
        for (count, (_, _, met)) in self.kinds.iter_mut().zip(&KINDS) {
            *count += u64::from(met(sight));
        }
    }

    pub fn print(&self, least: &mut Least) {
        self.print_runs(least);
        self.print_histories(least);
        self.print_damaged(least);
        self.print_refusals(least);
    }

    fn print_runs(&self, least: &mut Least) {
        println!("disks: runs");
        least.met("runs", self.runs, 60_000);
        least.met("steps", self.steps, 500_000);
        let reasons = ["the budget", "an exception", "two matches"];
        least.each(&reasons, "ended by", &self.by_reason[1..], &[30_000, 5_000, 1_000]);
        for (count, met) in self.by_disks.iter().enumerate() {
            least.met(
                format!("with {count} disks"),
                *met,
                if count % 8 == 0 { 6_000 } else { 100 },
            );
        }
        println!("disks: steps with");
        least.kinds(&self.kinds, &KINDS);
        least.met("stopped before a word that a disk brings", self.halts[0], 30);
        least.met("stopped before a word that stood there", self.halts[1], 500);
    }

    fn print_histories(&self, least: &mut Least) {
        println!("disks: histories");
        least.met("histories", self.histories, 12_000);
        least.met("steps taken back", self.taken_back, 70_000);
        let ways = ["from rest to rest", "from rest to work", "from work to rest", "within work"];
        least.each(&ways, "disks", &self.between, &[20_000, 1_000, 30, 10_000]);
        let hows = ["rested", "were on their way", "read a word", "wrote a word"];
        let enough = [100_000, 5_000, 30_000, 30_000];
        least.each(&hows, "given back, disks that", &self.given_back, &enough);
        least.met("registers given back", self.registers_back, 5_000);
        least.each(&["none", "a step"], "questions that tell", &self.asked, &[1_000, 500]);
        least.met("of a step in which a disk read", self.told_reads, 200);
    }

    fn print_damaged(&self, least: &mut Least) {
        println!("disks: damaged journals");
        for (number, enough) in [(0, 4_000), (5, 100), (8, 8_000), (13, 100)] {
            least.met(format!("answered {number}"), self.judged[number], enough);
        }
        for ((name, _), count) in DAMAGES.iter().zip(&self.damages) {
            least.met(name, *count, 800);
        }
        println!("disks: bad records by what was wrong, that alone");
        for ((name, enough, _), count) in WRONGS.iter().zip(&self.clauses) {
            least.met(name, *count, *enough);
        }
        println!("disks: records that keep the layout, with");
        least.each(&PLACES, "", &self.places, &[100, 20, 1_000, 100]);
    }

    fn print_refusals(&self, least: &mut Least) {
        println!("disks: refusals");
        let calls = ["run", "take-back", "last_write"];
        for ((name, rows), met) in calls.iter().zip(ROWS).zip(&self.rows) {
            least.met(format!("{name}, done"), met[0], 1_000);
            for row in rows {
                least.met(format!("{name}, answered {row}"), met[usize::from(*row)], 200);
            }
        }
        for ((name, _), count) in BROKEN.iter().zip(&self.rules) {
            least.met(format!("broken alone: {name}"), *count, 20);
        }
        for number in [0, 5, 6, 10] {
            least.met(format!("reset, answered {number}"), self.resets[number], 400);
        }
    }
}
