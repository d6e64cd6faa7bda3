//! A call on which the archive and the reference differ: the first budget at
//! which they do, and all that is needed to look into it.

use crate::archive;
use crate::call::{Call, Outcome};
use crate::fields::byte_name;
use crate::look::{route, word_at_pc};
use crate::names::{index_byte, journal_byte, paper_byte, ram_byte};
use crate::report::{different, said, unpacked};
use reference::{decode, Machine, Memory};

const MOST_LINES: usize = 12;

fn differs(call: &Call, budget: u64) -> bool {
    archive::run(call, budget).as_ref() != Ok(&call.by_reference(budget))
}

/// Found by halving: they differ with this budget and not with one less. 0
/// where they differ without a step.
fn first_budget(call: &Call) -> u64 {
    let (mut equal, mut unequal) = (0, call.budget);
    if unequal == 0 || differs(call, 0) {
        return 0;
    }
    while unequal - equal > 1 {
        let middle = equal + (unequal - equal) / 2;
        if differs(call, middle) {
            unequal = middle;
        } else {
            equal = middle;
        }
    }
    unequal
}

/// Prints the difference and ends the program.
pub fn explain(what: &str, call: &Call) -> ! {
    let number = call.by_reference(call.budget).number();
    let budget = if number == 0 { first_budget(call) } else { call.budget };
    let expected = call.by_reference(budget);
    let mut lines = vec![
        what.to_string(),
        format!("budget {} ({:#x}), stop {:#x}", call.budget, call.budget, call.stop),
        format!(
            "RAM {}, ROMs {} and {}, paper {}, journal {} bytes",
            call.ram.len(),
            call.execution.len(),
            call.bootstrap.len(),
            call.paper.len(),
            call.journal.len()
        ),
    ];
    if number == 0 {
        lines.push(format!("first differing budget: {budget}"));
        lines.extend(before_last_step(call, expected.steps().max(1)));
    }
    let archive = archive::run(call, budget);
    let answer = archive.as_ref().map(|outcome| outcome.answer).map_err(String::clone);
    lines.push(format!("archive:   {}", said(&answer, unpacked)));
    lines.push(format!("reference: {}", unpacked(expected.answer)));
    if let Ok(got) = archive {
        lines.extend(bytes(call, &got, &expected));
    }
    different("run", &lines)
}

/// The state that the last step finds.
fn before_last_step(call: &Call, step: u64) -> Vec<String> {
    let mut there = call.after(step - 1);
    let machine = decode(&there.image);
    let fetch = route(&machine, machine.pc);
    let memory = Memory {
        execution_rom: &there.execution,
        bootstrap_rom: &there.bootstrap,
        ram: &mut there.ram,
        paper: &mut there.paper,
        disks: reference::no_disks(),
    };
    let word = word_at_pc(&machine, &memory, &fetch);
    let shown = word.map_or("none".to_string(), |word| format!("{word:#010x}"));
    let mut lines = vec![
        format!("step {step}: instruction word {shown}"),
        format!("  PC {:#010x}, next PC {:#010x}", machine.pc, machine.next_pc),
    ];
    lines.extend(context(&machine, word));
    let alone = Call { stop: 0, ..call.after(step - 1) };
    let differs = differs(&alone, 1);
    lines.push(format!("  that step alone, as a run of budget 1: {}", verdict(differs)));
    lines
}

fn verdict(differs: bool) -> &'static str {
    if differs {
        "differs too"
    } else {
        "is equal"
    }
}

fn context(machine: &Machine, word: Option<u32>) -> Vec<String> {
    let (status, cause) = (machine.status.0, machine.cause);
    let mut lines = vec![
        format!("  Status {status:#010x}, Cause {cause:#010x}, EntryHi {:#010x}", machine.entry_hi),
        format!(
            "  timer {:#x}, Random {:#x}, Index {:#x}",
            machine.timer, machine.random, machine.index
        ),
    ];
    if let Some(word) = word {
        let (rs, rt) = (word >> 21 & 31, word >> 16 & 31);
        let value = |number: u32| machine.registers[number as usize];
        lines.push(format!("  ${rs} {:#010x}, ${rt} {:#010x}", value(rs), value(rt)));
    }
    lines
}

fn bytes(call: &Call, got: &Outcome, expected: &Outcome) -> Vec<String> {
    let paper = |place| paper_byte(place, call.paper.len());
    let mut lines = Vec::new();
    let mut count = 0;
    count += compare(&mut lines, &byte_name, [&got.image, &expected.image, &call.image]);
    count += compare(&mut lines, &ram_byte, [&got.ram, &expected.ram, &call.ram]);
    count += compare(&mut lines, &paper, [&got.paper, &expected.paper, &call.paper]);
    count += compare(&mut lines, &journal_byte, [&got.journal, &expected.journal, &call.journal]);
    count += compare(&mut lines, &index_byte, [&got.index, &expected.index, &call.index]);
    lines.push(format!("differing bytes: {count}"));
    lines
}

/// Names the first few of the bytes that differ, and counts all.
fn compare(lines: &mut Vec<String>, name: &dyn Fn(usize) -> String, bytes: [&[u8]; 3]) -> usize {
    let [got, expected, before] = bytes;
    let unequal = || (0..got.len()).filter(|place| got[*place] != expected[*place]);
    for place in unequal().take(MOST_LINES) {
        lines.push(format!(
            "{}: archive {:#04x}, reference {:#04x}, at the start {:#04x}",
            name(place),
            got[place],
            expected[place],
            before[place]
        ));
    }
    unequal().count()
}
