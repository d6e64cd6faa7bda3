//! Compares the reference emulator with qemu-mipsel on random cases.
//!
//! Arguments: the judge program, and a seed (decimal, default 1).

mod case;
mod dice;
mod generate;
mod instructions;
mod qemu;
mod report;
mod under_reference;

use case::{Case, BATCH};
use dice::Dice;
use instructions::INSTRUCTIONS;
use report::Tally;

/// One batch for each instruction gives each of them as many cases.
const BATCHES: usize = INSTRUCTIONS.len();

fn main() {
    let mut arguments = std::env::args().skip(1);
    let judge = arguments.next().expect("the judge program is the first argument");
    let seed = arguments.next().map_or(1, |text| text.parse().expect("the seed is a number"));
    println!("seed {seed}");
    let mut dice = Dice::new(seed);
    let mut qemu = qemu::Qemu::start(&judge);
    let mut reference = under_reference::Reference::new();
    let mut tally = Tally::new();
    for batch in 0..BATCHES {
        let cases: Vec<Case> = (0..BATCH)
            .map(|slot| {
                generate::case(&mut dice, slot, (batch * BATCH + slot) % INSTRUCTIONS.len())
            })
            .collect();
        let judged = qemu.run(&cases);
        let ours = reference.run(&cases);
        for ((case, judged), ours) in cases.iter().zip(&judged).zip(&ours) {
            tally.add(case, judged, ours);
        }
    }
    std::process::exit(if tally.print() { 0 } else { 1 });
}
