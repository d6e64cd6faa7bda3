//! Runs compiled programs on the archive, beside the reference, and compares
//! output and end with qemu-mipsel's.
//!
//! `programs FOLDER [SEED]`; compile.sh fills the folder. Exit 0: all equal.

#[allow(dead_code)]
#[path = "../../common/dice.rs"]
mod dice;
#[allow(dead_code)]
#[path = "../../common/lavushmir.rs"]
mod lavushmir;

mod elf;
mod expected;
mod judge;
mod mode;
mod session;
mod station;
mod sweep;
mod totals;

use dice::Dice;
use mode::{Mode, MODES};
use session::Outcome;
use station::Roms;
use std::env;
use std::fs::{read, read_dir};
use std::path::{Path, PathBuf};
use std::process::exit;
use totals::Totals;

const DEFAULT_SEED: u64 = 1;
const LEAST_PROGRAMS: usize = 83;

fn usage() -> ! {
    eprintln!("usage: programs FOLDER [SEED]");
    exit(2)
}

fn arguments() -> (PathBuf, u64) {
    let given: Vec<String> = env::args().skip(1).collect();
    match &given[..] {
        [folder] => (folder.into(), DEFAULT_SEED),
        [folder, seed] => (folder.into(), seed.parse().unwrap_or_else(|_| usage())),
        _ => usage(),
    }
}

fn program_names(folder: &Path) -> Vec<String> {
    let files = read_dir(folder).expect("the folder of the programs");
    let mut names: Vec<String> = files
        .filter_map(|file| {
            let name = file.expect("a file's name").file_name().into_string().ok()?;
            Some(name.strip_suffix(".elf")?.to_string())
        })
        .collect();
    names.sort();
    names
}

/// Prints the outcome, or what was not equal, which ends the program.
fn try_one(folder: &Path, name: &str, roms: &Roms, mode: Mode, dice: &mut Dice) -> Outcome {
    let outcome = judge::judge(folder, name, roms, mode, dice).unwrap_or_else(|wrong| {
        println!("DIFFERENT: {name}, {}: {wrong}", mode.name());
        exit(1)
    });
    println!("  {name:<20}{:<14}{:>9} steps, {:?}", mode.name(), outcome.steps, outcome.end);
    outcome
}

fn main() {
    let (folder, seed) = arguments();
    println!("programs: seed {seed}");
    let rom = |name| read(folder.join(name)).expect("a ROM");
    let roms = Roms { execution: rom("execution.rom"), bootstrap: rom("bootstrap.rom") };
    if let Err(wrong) = sweep::sweep_all(&folder.join("sweep"), &roms, &mut Dice::new(seed)) {
        println!("DIFFERENT: sweep of {wrong}");
        exit(1);
    }
    let names = program_names(&folder);
    let mut totals = Totals::default();
    for (number, name) in (0..).zip(&names) {
        for mode in MODES.iter().copied().filter(|mode| judge::fits(name, *mode)) {
            // Dice of its own, so that one program can change without the rest.
            let dice = &mut Dice::new(seed ^ (number << 8 | mode as u64) << 32);
            totals.add(&try_one(&folder, name, &roms, mode, dice));
        }
    }
    if names.len() < LEAST_PROGRAMS {
        println!("TOO FEW: {} programs", names.len());
        exit(1);
    }
    println!("programs: all {} equal", names.len());
    totals.print();
    if !totals.met_slots() {
        println!("TOO FEW: no interrupt or no miss in a branch's slot");
        exit(1);
    }
}
