//! Prints what the runs have met; each count has to be enough.

use crate::access_corners::ACCESSES;
use crate::book;
use crate::call_corners::CALLS;
use crate::corners::STEPS;
use crate::least::{lowest, Least};
use crate::seen::{Seen, VECTORS};

/// The number of runs that the least counts are made for.
pub const RUNS: u64 = 200_000;

const CODES: [&str; 13] = [
    "0 Int", "1 Mod", "2 TLBL", "3 TLBS", "4 AdEL", "5 AdES", "6 IBE", "7 DBE", "8 Sys", "9 Bp",
    "10 RI", "11 CpU", "12 Ov",
];

pub fn print(seen: &Seen) {
    let mut least = Least::new(seen.runs, RUNS);
    println!("run: runs");
    least.met("runs", seen.runs, RUNS);
    least.met("steps in all", seen.steps, 3_000_000);
    least.met("steps looked at for these counts", seen.looked_at, 2_000_000);
    least.met("runs in user mode", seen.user_runs, 50_000);
    least.met("runs with translation on", seen.translated_runs, 50_000);
    least.met("runs in user mode with translation on", seen.both_runs, 20_000);
    least.met("rounds of the journal, 2 slots or more", seen.wraps, 100_000);
    least.met("runs on which a full journal stayed full", seen.full_journals, 50_000);
    least.kinds(&seen.calls_met, &CALLS);

    println!("run: exceptions entered");
    for (name, count) in CODES.iter().zip(seen.by_code) {
        least.met(format!("code {name}"), count, 1_001);
    }
    for line in [0, 1, 2, 6] {
        least.met(format!("interrupts with line {line} on"), seen.by_line[line], 1_000);
    }
    for (number, count) in seen.by_coprocessor.iter().enumerate() {
        least.met(format!("code 11 with CE {number}"), *count, 500);
    }
    for (vector, count) in VECTORS.iter().zip(seen.by_vector) {
        least.met(format!("entries at {vector:#010x}"), count, 1_000);
    }

    println!("run: instructions done");
    for (instruction, count) in book::all().zip(&seen.executed) {
        // SYSCALL and BREAK are never done; codes 8 and 9 count them.
        let raises = ["SYSCALL", "BREAK"].contains(&instruction.name);
        least.met(instruction.name, *count, if raises { 0 } else { 1_000 });
    }
    for number in [0, 1, 2, 8, 10, 12, 13, 14] {
        least.met(format!("MFC0 of {number}"), seen.moves_from[number], 500);
        least.met(format!("MTC0 to {number}"), seen.moves_to[number], 500);
    }
    least.met("the row that TLBWI wrote least often", lowest(&seen.rows_by_index), 100);
    least.met(
        "the row 1 to 15 that TLBWR wrote least often",
        lowest(&seen.rows_by_random[1..]),
        100,
    );

    println!("run: corners of a step");
    least.kinds(&seen.steps_met, &STEPS);
    println!("run: loads and stores");
    least.kinds(&seen.accesses_met, &ACCESSES);
    least.met("the device word read least often", lowest(&seen.device_loads), 50);
    least.met("the device word written least often", lowest(&seen.device_stores), 50);
    printers(seen, &mut least);
    least.end();
}

fn printers(seen: &Seen, least: &mut Least) {
    let printed = &seen.printed;
    println!("run: printers");
    least.met("printers finished", printed.finished.iter().sum(), 10_000);
    least.met("the printer that finished least often", lowest(&printed.finished), 1_000);
    least.met("bytes printed", printed.bytes.iter().sum(), 5_000);
    least.met("the printer that printed least often", lowest(&printed.bytes), 500);
    least.met("full eighths met", printed.full, 2_000);
    least.met("RESETs finished", printed.resets, 2_000);
    least.met("steps in which several finished", printed.several_at_once, 1_000);
    least.met("finished and interrupted in the same step", printed.interrupt_at_once, 1_000);
    least.met("finished in a step with another exception", printed.beside_an_exception, 500);
}
