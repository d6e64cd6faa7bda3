//! What the histories and refusals have met, and how often it has to be.

use crate::histories::{LONGEST, MOST_FRAMES};
use crate::keep::Kept;
use crate::least::Least;
use crate::program::RAM;
use crate::refusals::{Trial, CALLS};
use reference::Answer;

pub const HISTORIES: u64 = 100_000;

const SLOTS: [usize; 6] = [0, 1, 2, 3, 17, LONGEST];
const FRAMES: [usize; 5] = [1, 2, 3, 4, MOST_FRAMES];

#[derive(Default)]
pub struct Met {
    pub histories: u64,
    by_slots: [u64; SLOTS.len()],
    by_frames: [u64; FRAMES.len()],
    pub resets: u64,
    pub found: u64,
    pub spoiled: u64,
    pub forged: u64,
    runs: u64,
    steps: u64,
    carries: u64,
    clock_rounds: u64,
    journal_rounds: u64,
    take_backs: u64,
    whole: u64,
    refused_7: u64,
    refused_8: u64,
    pub afresh: u64,
    pub looked: u64,
    /// With an index that was not kept since a reset, and with one that was.
    pub by_keeping: [Kept; 2],
    pub asked: u64,
    pub asked_unknown: u64,
    pub by_number: [u64; 13],
    pub told: u64,
    pub told_newest: u64,
    pub told_oldest: u64,
    pub told_round: u64,
    pub told_behind_equal: u64,
    pub told_beside_spoiled: u64,
    pub none: u64,
    pub none_but_equal: u64,
    pub none_but_dropped: u64,
    pub none_on_hand: u64,
    below_ram: u64,
    behind_ram: u64,
    past_32_bits: u64,
    unaligned: u64,
    pub combinations: [u64; CALLS.len()],
    pub values: u64,
    /// By call and number.
    refused: [[u64; 13]; CALLS.len()],
    alone: [[u64; 13]; CALLS.len()],
    several: [u64; CALLS.len()],
}

fn count<const N: usize>(counts: &mut [u64; N], all: [usize; N], one: usize) {
    let place = all.iter().position(|other| *other == one).expect("one of the list");
    counts[place] += 1;
}

impl Met {
    pub fn began(&mut self, slots: usize, frames: usize) {
        self.histories += 1;
        count(&mut self.by_slots, SLOTS, slots);
        count(&mut self.by_frames, FRAMES, frames);
    }

    pub fn ran(&mut self, steps: u32, clock: u64, slots: usize) {
        let after = clock.wrapping_add(steps.into());
        self.runs += 1;
        self.steps += u64::from(steps);
        self.carries += u64::from(after >> 32 != clock >> 32 && after > clock);
        self.clock_rounds += u64::from(after < clock);
        self.journal_rounds += u64::from(slots > 0 && steps as usize > slots);
    }

    pub fn took_back(&mut self, answer: Answer, on_hand: u32) {
        self.take_backs += 1;
        self.whole += u64::from(answer.steps > 0 && answer.steps == on_hand);
        self.refused_7 += u64::from(answer.number == 7);
        self.refused_8 += u64::from(answer.number == 8);
    }

    pub fn refused_address(&mut self, address: u64, ram: usize) {
        let (start, end) = (u64::from(RAM), u64::from(RAM) + ram as u64);
        self.below_ram += u64::from(address < start);
        self.behind_ram += u64::from((end..1 << 32).contains(&address));
        let low = address & 0xFFFF_FFFF;
        self.past_32_bits += u64::from(address >> 32 != 0 && (start..end).contains(&low));
        self.unaligned += u64::from((start..end).contains(&address) && address % 4 != 0);
    }

    pub fn refused(&mut self, trial: &Trial, number: u8) {
        let (call, place) = (trial.call, number as usize);
        self.refused[call][place] += 1;
        self.alone[call][place] += u64::from(trial.rows.len() <= 1);
        self.several[call] += u64::from(trial.rows.len() > 1);
    }

    fn print_calls(&self, counts: &mut Counts) {
        counts.met("histories", self.histories, HISTORIES);
        for (slots, count) in SLOTS.iter().zip(self.by_slots) {
            let least = if *slots == LONGEST { 200 } else { 5_000 };
            counts.met(format!("with {slots} slots"), count, least);
        }
        for (frames, count) in FRAMES.iter().zip(self.by_frames) {
            let least = if *frames == MOST_FRAMES { 100 } else { 5_000 };
            counts.met(format!("with {frames} frames"), count, least);
        }
        counts.met("resets", self.resets, 90_000);
        counts.met("begun without one", self.found, 10_000);
        counts.met("runs", self.runs, 200_000);
        counts.met("steps", self.steps, 4_000_000);
        counts.met("runs over a carry of the clock's low word", self.carries, 5_000);
        counts.met("runs over the clock's end", self.clock_rounds, 5_000);
        counts.met("runs longer than the journal", self.journal_rounds, 80_000);
        counts.met("take-backs", self.take_backs, 100_000);
        counts.met("of all on hand", self.whole, 20_000);
        counts.met("take-backs refused with 7", self.refused_7, 15_000);
        counts.met("take-backs refused with 8", self.refused_8, 1_000);
        counts.met("times the index was worked out afresh", self.afresh, 300_000);
        counts.met("times entries were spoiled", self.spoiled, 30_000);
        counts.met("times records and counts were forged", self.forged, 15_000);
        counts.met("writes gone back to and looked at", self.looked, 8_000);
    }

    fn print_kept(&self, counts: &mut Counts) {
        for (kept, least) in self.by_keeping.iter().zip([1, 4]) {
            println!("index: {}", if least == 1 { "an index that nobody kept" } else { "kept" });
            counts.met("stores that changed a word", kept.changes, 50_000 * least);
            counts.met("stores of an equal value", kept.equal_stores, 50_000 * least);
            counts.met("distances in records", kept.distances, 50_000 * least);
            counts.met("records dropped", kept.drops, 100_000 * least);
            counts.met("drops that emptied an entry", kept.emptied, 5_000 * least);
            counts.met("drops of a store that emptied none", kept.not_emptied, 20_000 * least);
            counts.met("entries brought back", kept.brought_back, 2_000 * least);
            counts.met("entries emptied by a take-back", kept.emptied_back, 1_500 * least);
            counts.met("whose step before was dropped", kept.before_dropped, 500 * least);
            counts.met("stores taken back that none named", kept.not_named, 5_000 * least);
            counts.met("steps without slots", kept.without_slots, 50_000 * least);
        }
        println!("index: only on long journals");
        for (bits, count) in [8, 14].iter().zip(self.by_keeping[1].wide) {
            counts.met(format!("distances of more than {bits} bits"), count, 100);
        }
        let any = &self.by_keeping[0];
        println!("index: only where nobody kept it");
        counts.met("entries out of reach at a store", any.out_of_reach, 2_000);
        counts.met("entries that name nothing, not 0, at a store", any.unreadable, 2_000);
        counts.met("dropped records with a place outside", any.outside, 1_000);
        let fourth = &any.fourth;
        println!("index: entries with a first word 1 and a fourth that is not 0");
        counts.met("distances to the step named", fourth.distances, 2_000);
        counts.met("replaced by a store that changed a word", fourth.replaced, 5_000);
        counts.met("left by a store of an equal value", fourth.left, 5_000);
        counts.met("emptied by a drop", fourth.dropped, 1_500);
        counts.met("left by a drop", fourth.drop_left, 5_000);
        counts.met("replaced by a step brought back", fourth.brought_back, 300);
        counts.met("emptied by the step taken back", fourth.emptied_back, 400);
        counts.met("left by another step taken back", fourth.back_left, 800);
    }

    fn print_questions(&self, counts: &mut Counts) {
        println!("index: questions");
        counts.met("questions", self.asked, 600_000);
        counts.met("of a state that is not known", self.asked_unknown, 50_000);
        for number in [0, 8, 11, 12] {
            counts.met(format!("answered {number}"), self.by_number[number], 15_000);
        }
        counts.met("told", self.told, 50_000);
        counts.met("the newest step told", self.told_newest, 15_000);
        counts.met("the oldest step told", self.told_oldest, 8_000);
        counts.met("told round the journal's end", self.told_round, 15_000);
        counts.met("told behind stores of an equal value", self.told_behind_equal, 6_000);
        counts.met("told beside a spoiled index", self.told_beside_spoiled, 3_000);
        counts.met("none on hand", self.none, 150_000);
        counts.met("none, but equal stores", self.none_but_equal, 20_000);
        counts.met("none any more", self.none_but_dropped, 40_000);
        counts.met("none, with no step on hand", self.none_on_hand, 50_000);
        counts.met("addresses below RAM", self.below_ram, 20_000);
        counts.met("addresses behind RAM", self.behind_ram, 12_000);
        counts.met("addresses in RAM but for bits past the 32nd", self.past_32_bits, 20_000);
        counts.met("addresses in RAM, not multiples of 4", self.unaligned, 20_000);
    }

    fn print_refusals(&self, counts: &mut Counts) {
        println!("index: refusals");
        counts.met("values, each alone", self.values, 100);
        for (call, (name, rows)) in CALLS.iter().enumerate() {
            let ways = 1 << rows.len();
            let combinations = self.combinations[call];
            counts.met(format!("{name}: combinations, of {ways}"), combinations, ways);
            for row in [&[0][..], rows].concat() {
                let (all, alone) =
                    (self.refused[call][row as usize], self.alone[call][row as usize]);
                counts.met(format!("{name}: answered {row}"), all, 40);
                counts.met(format!("{name}: answered {row} where it alone applies"), alone, 40);
            }
            counts.met(format!("{name}: the lowest of several"), self.several[call], 150);
        }
    }

    pub fn print(&self, counts: &mut Counts) {
        println!("index: calls");
        self.print_calls(counts);
        self.print_kept(counts);
        self.print_questions(counts);
        self.print_refusals(counts);
    }
}

/// Counts that have to be enough, and never 0 however few histories there are.
pub struct Counts {
    least: Least,
    none: Vec<String>,
}

impl Counts {
    pub fn new(histories: u64) -> Counts {
        Counts { least: Least::new(histories, HISTORIES), none: Vec::new() }
    }

    fn met(&mut self, what: impl Into<String>, count: u64, least: u64) {
        let what = what.into();
        self.least.met(&what, count, least);
        if count == 0 {
            self.none.push(what);
        }
    }

    /// Whether nothing that must be met was never met.
    pub fn end(&self) -> bool {
        if !self.none.is_empty() {
            println!("NEVER MET: {}", self.none.join("; "));
        }
        self.least.end();
        self.none.is_empty()
    }
}
