//! Instructions a step of the archive, by callgrind: exact, and the same on
//! every machine. The same call is made with n and with 3 n steps, so that all
//! that is not a step drops out.

use crate::archive;
use crate::endless::{kinds, SLOTS};
use crate::loops::FRAMES;
use std::env::current_exe;
use std::process::Command;

const STEPS: u64 = 20_000;

/// What the counted program does: one run of the archive.
pub fn run(kind: usize, slots: usize, steps: u64) {
    let kind = kinds()[kind];
    let mut station = kind.program.station(kind.translated, slots, FRAMES);
    let (_, done) = station.run(archive::run, steps);
    assert_eq!(done, steps, "a loop has no end");
}

/// All instructions of the program, or None where they cannot be counted.
fn instructions(kind: usize, slots: usize, steps: u64) -> Option<u64> {
    let counted = Command::new("valgrind")
        .args(["--tool=callgrind", "--callgrind-out-file=/dev/null"])
        .arg(current_exe().ok()?)
        .arg("--counted")
        .args([kind.to_string(), slots.to_string(), steps.to_string()])
        .output()
        .ok()
        .filter(|output| output.status.success())?;
    let said = String::from_utf8_lossy(&counted.stderr).into_owned();
    let (_, behind) = said.split_once("Collected : ")?;
    behind.split_whitespace().next()?.parse().ok()
}

fn a_step(kind: usize, slots: usize) -> Option<f64> {
    let (one, three) = (instructions(kind, slots, STEPS)?, instructions(kind, slots, 3 * STEPS)?);
    Some((three - one) as f64 / (2 * STEPS) as f64)
}

pub fn table() {
    println!("\nInstructions a step of the archive, by callgrind");
    for (number, kind) in kinds().iter().enumerate() {
        eprintln!("callgrind: {}", kind.name());
        let figures = SLOTS.map(|slots| a_step(number, slots));
        if figures.contains(&None) {
            println!("not counted: no valgrind here, or none that runs this program");
            return;
        }
        let shown = figures.map(|figure| format!("{:>10.1}", figure.unwrap_or(0.0))).concat();
        println!("{:<28}{shown}   with 0, 16 and 32,768 slots", kind.name());
    }
}
