//! Counts of cases, and the first difference in full.

use crate::case::{Case, State, MAIN_WORD};
use crate::instructions::{Form, INSTRUCTIONS};

const AT_LEAST: usize = 1_000;

/// Each way of a branch, and the traps of each instruction that can overflow.
const EACH_WAY: usize = 100;

#[derive(Clone, Copy, Default)]
struct Count {
    cases: usize,
    differing: usize,
    /// Ended elsewhere than behind the following word: taken, or trapped.
    elsewhere: usize,
}

pub struct Tally {
    counts: Vec<Count>,
    overflows: usize,
    unaligned: usize,
}

impl Tally {
    pub fn new() -> Tally {
        Tally { counts: vec![Count::default(); INSTRUCTIONS.len()], overflows: 0, unaligned: 0 }
    }

    pub fn add(&mut self, case: &Case, judged: &State, ours: &State) {
        let first = self.counts.iter().all(|count| count.differing == 0);
        let count = &mut self.counts[case.instruction];
        count.cases += 1;
        count.elsewhere += usize::from(judged.pc != case.before.pc + 8);
        self.overflows += usize::from(judged.signal == 8);
        self.unaligned += usize::from(judged.signal == 10);
        if judged != ours {
            count.differing += 1;
            if first {
                show(case, judged, ours);
            }
        }
    }

    /// Prints the counts and tells whether all is well.
    pub fn print(&self) -> bool {
        println!("{:8} {:>7} {:>16} {:>9}", "", "cases", "taken or trapped", "differing");
        for ((name, _), count) in INSTRUCTIONS.iter().zip(&self.counts) {
            println!("{name:8} {:7} {:16} {:9}", count.cases, count.elsewhere, count.differing);
        }
        let total: usize = self.counts.iter().map(|count| count.cases).sum();
        let differing: usize = self.counts.iter().map(|count| count.differing).sum();
        println!("overflow traps {}, unaligned accesses {}", self.overflows, self.unaligned);
        println!("{total} cases in all, {differing} differing");
        let enough = self.enough();
        if !enough {
            println!("an instruction has too few cases, of all or of one kind");
        }
        differing == 0 && enough
    }

    fn enough(&self) -> bool {
        INSTRUCTIONS.iter().zip(&self.counts).all(|((name, form), count)| {
            let there = count.elsewhere >= EACH_WAY;
            let here = count.cases - count.elsewhere >= EACH_WAY;
            let both_ways = match form {
                Form::Compare(_) | Form::Bcond(_) => here && there,
                Form::Memory(_, bytes) if *bytes > 1 => here && there,
                _ if ["add", "addi", "sub"].contains(name) => here && there,
                _ => true,
            };
            count.cases >= AT_LEAST && both_ways
        })
    }
}

fn show(case: &Case, judged: &State, ours: &State) {
    let main = MAIN_WORD as usize;
    println!("first difference: {}", INSTRUCTIONS[case.instruction].0);
    println!(
        "  words {:08x} {:08x} at {:08x}",
        case.code[main],
        case.code[main + 1],
        case.before.pc
    );
    show_state("before", &case.before);
    show_state("qemu", judged);
    show_state("reference", ours);
    let names = (0..32).map(|number| format!("${number}"));
    let names = names.chain(["hi", "lo", "pc", "signal"].map(String::from));
    let names = names.chain((0..8).map(|word| format!("block[{word}]")));
    for ((name, judged), ours) in names.zip(judged.words()).zip(ours.words()) {
        if judged != ours {
            println!("  {name}: qemu {judged:08x}, reference {ours:08x}");
        }
    }
}

fn show_state(title: &str, state: &State) {
    println!("  {title}:");
    for (row, eight) in state.registers.chunks(8).enumerate() {
        println!("    ${:<2} {}", row * 8, hex(eight));
    }
    println!(
        "    hi {:08x} lo {:08x} pc {:08x} signal {}",
        state.hi, state.lo, state.pc, state.signal
    );
    println!("    block {}", hex(&state.block));
}

fn hex(words: &[u32]) -> String {
    words.iter().map(|word| format!("{word:08x}")).collect::<Vec<_>>().join(" ")
}
