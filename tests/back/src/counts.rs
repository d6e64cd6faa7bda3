//! Prints what was met, and how often it has to be.

use crate::breaches::BREACHES;
use crate::damage::DAMAGES;
use crate::judge::WRONGS;
use crate::least::Least;
use crate::stepped::Stepped;
use crate::{asked, case, damaged, refusals, sequence, sequences, soak};

pub const SEQUENCES: u64 = 50_000;
pub const JOURNALS: u64 = 60_000;
pub const SOAK_STEPS: u64 = 100_000_000;

const CODES: [&str; 13] = [
    "0 Int", "1 Mod", "2 TLBL", "3 TLBS", "4 AdEL", "5 AdES", "6 IBE", "7 DBE", "8 Sys", "9 Bp",
    "10 RI", "11 CpU", "12 Ov",
];

const KINDS: [&str; 4] =
    ["nothing else", "registers", "rows of the translation table", "words of RAM"];

fn lowest(counts: &[u64]) -> u64 {
    counts.iter().copied().min().unwrap_or(0)
}

pub fn sequences(least: &mut Least, met: &sequence::Met) {
    println!("back: sequences of runs and take-backs");
    least.met("sequences, each ended beside a fresh run", met.sequences, SEQUENCES);
    least.each(&sequences::STARTS, "from", &met.by_start, &[15_000, 6_000, 12_000]);
    let enough = [2_000, 4_000, 4_000, 4_000, 10_000, 60];
    least.each(&sequences::SLOTS, "slots:", &met.by_slots, &enough);
    least.met("runs", met.runs, 100_000);
    least.met("steps run", met.steps, 8_000_000);
    least.met("runs that ended by two matches", met.halts, 1_000);
    least.met("take-backs of 0", met.zero, 10_000);
    least.met("take-backs of all on hand", met.all, 15_000);
    least.met("take-backs of one more", met.one_more, 5_000);
    least.met("take-backs of 2^32 or more", met.huge, 3_000);
    least.met("of them with a low half that is on hand", met.low_half, 2_000);
    least.met("take-backs from a full journal", met.from_full, 20_000);
    least.met("take-backs to the very start", met.back_to_start, 2_000);
    least.met("done", met.by_number[0], 50_000);
    least.met("refused with 7", met.by_number[7], 8_000);
    least.met("refused with 8, for records that no step wrote", met.by_number[8], 100);
    stepped(least, &met.stepped, &SEQUENCE);
}

pub fn refusals(least: &mut Least, met: &refusals::Met) {
    println!("back: refusals");
    least.met("lengths, each alone", met.values, 57);
    least.met("combinations of wrong things, of 64", met.combinations, 64);
    for ((name, number), count) in asked::ROWS.iter().zip(met.alone) {
        least.met(format!("{number}, only {name} wrong"), count, 60);
    }
    for number in [0, 1, 3, 4, 5, 7, 8] {
        least.met(format!("answered {number}"), met.by_number[number], 60);
    }
    least.met("answered the lowest of several", met.several, 6_000);
    for ((name, _), count) in BREACHES.iter().zip(&met.breaches) {
        least.met(format!("5, {name}"), *count, 10);
    }
}

pub fn damaged(least: &mut Least, met: &case::Met) {
    println!("back: damaged journals");
    least.met("damaged journals", met.journals, JOURNALS);
    least.met("records judged", met.records, 2_000_000);
    let enough = [8_000, 4_000, 15_000, 2_000];
    least.each(&case::PLACES, "damaged:", &met.by_place, &enough);
    least.met("two records damaged, both asked for", met.two_damaged, 1_000);
    least.each(&damaged::SLOTS, "slots:", &met.by_slots, &[4_000, 4_000, 4_000, 10_000, 200]);
    least.met("refused for the oldest of several", met.only_the_oldest, 5_000);
    least.met("done, a place in the next printer's eighth", met.next_eighth, 500);
    least.met("done, two bytes on one place", met.one_place, 300);
    let enough = [1_000, 200, 100];
    least.each(&damaged::OTHER_LENGTHS, "other lengths lent,", &met.other_lengths, &enough);
    println!("back: damaged journals by what was done to a record: done, refused with 8");
    for ((name, _), (done, refused)) in DAMAGES.iter().zip(met.done.iter().zip(&met.refused)) {
        println!("  {name}: {done}, {refused}");
    }
    least.met("done in all", met.done.iter().sum(), 15_000);
    least.met("refused with 8 in all", met.refused.iter().sum(), 25_000);
    println!("back: bad records by what was wrong, that alone");
    for ((name, enough, _), (alone, wrong)) in WRONGS.iter().zip(met.alone.iter().zip(&met.wrong)) {
        least.met(format!("{name} ({wrong} in all)"), *alone, *enough);
    }
}

pub fn soak(least: &mut Least, met: &soak::Met) {
    println!("back: the soak");
    least.met("steps that stand at the end", met.net, SOAK_STEPS);
    least.met("steps run", met.steps, SOAK_STEPS);
    least.met("runs", met.runs, 150);
    least.met("runs of 1,000,000 steps", met.longest_runs, 15);
    least.met("runs stopped at an exception", met.stopped, 10);
    least.met("take-backs", met.take_backs, 150);
    stepped(least, &met.stepped, &SOAK);
}

fn stepped(least: &mut Least, met: &Stepped, enough: &Enough) {
    println!("back: what the take-backs stepped over");
    least.met("records checked", met.records, enough.records);
    least.each(&KINDS, "given back:", &met.by_kind[..4], &enough.kinds);
    least.each(&CODES, "exceptions with code", &met.by_code, &enough.codes);
    least.met("steps in slots", met.slots, enough.slots);
    least.met("exceptions in slots", met.entered_in_slots, enough.slots / 50);
    least.met("timer passages", met.passages, enough.passages);
    least.met("take-backs over a carry of the clock", met.carries, enough.carries);
    least.met("take-backs over the clock's round", met.clock_rounds, enough.carries / 4);
    least.met("printers finished", met.finished.iter().sum(), enough.finished);
    least.met("the printer that finished least often", lowest(&met.finished), enough.finished / 10);
    least.met("bytes of paper given back", met.bytes.iter().sum(), enough.finished / 2);
    least.met("eight printers finished in one step", met.eight_finished, enough.eight);
    least.met("eight bytes of paper in one step", met.eight_bytes, enough.eight / 2);
    least.met(
        "finished in the step of an exception",
        met.finished_at_exception,
        enough.finished / 20,
    );
    least.met("take-backs round the journal's start", met.rounds, enough.rounds);
    least.met("take-backs that emptied the journal", met.whole, enough.rounds / 2);
}

struct Enough {
    records: u64,
    kinds: [u64; 4],
    codes: [u64; 13],
    slots: u64,
    passages: u64,
    carries: u64,
    finished: u64,
    eight: u64,
    rounds: u64,
}

const SEQUENCE: Enough = Enough {
    records: 1_000_000,
    kinds: [100_000, 100_000, 5_000, 2_500],
    codes: [10_000, 100, 10_000, 400, 10_000, 1_500, 3_000, 1_000, 100, 100, 500, 500, 80],
    slots: 50_000,
    passages: 2_000,
    carries: 500,
    finished: 5_000,
    eight: 400,
    rounds: 15_000,
};

/// No two printers that were started by stores finish in one step, and the
/// soak's clock is far from its round.
const SOAK: Enough = Enough {
    records: 2_000_000,
    kinds: [500_000, 500_000, 5_000, 50_000],
    codes: [2_000, 50_000, 5_000, 20, 800, 800, 0, 800, 1_500, 800, 800, 1_500, 800],
    slots: 15_000,
    passages: 2_000,
    carries: 0,
    finished: 3_000,
    eight: 0,
    rounds: 50,
};
