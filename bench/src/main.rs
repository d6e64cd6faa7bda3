//! Times the archive's run beside the reference's, on the same long runs.
//!
//! `bench FOLDER [--strict]`; FOLDER holds the compiled programs. Exit 0: all
//! ended in equal state; 1: not so, or, with `--strict`, a ratio above the limit.

#[allow(dead_code)]
#[path = "../../tests/common/dice.rs"]
mod dice;
#[path = "../../tests/programs/src/elf.rs"]
mod elf;
#[allow(dead_code)]
#[path = "../../tests/common/lavushmir.rs"]
mod lavushmir;
#[allow(dead_code)]
#[path = "../../tests/programs/src/mode.rs"]
mod mode;
#[allow(dead_code)]
#[path = "../../tests/programs/src/station.rs"]
mod program;

mod archive;
mod compiled;
mod counted;
mod cpu_time;
mod endless;
mod flat;
mod host;
mod loops;
mod rounds;
mod sitting;
mod station;
mod tables;

use std::env;
use std::path::Path;
use std::process::exit;

const LIMIT: f64 = 1.5;

fn usage() -> ! {
    eprintln!("usage: bench FOLDER [--strict]");
    exit(2)
}

fn number<T: std::str::FromStr>(text: &str) -> T {
    text.parse().unwrap_or_else(|_| usage())
}

fn all(folder: &Path, strict: bool) {
    host::print();
    println!("medians of {} repetitions in one sitting", sitting::REPETITIONS);
    let loops = endless::table();
    let programs = compiled::table(folder);
    flat::tables();
    counted::table();
    println!("\nall ended in equal state; highest ratio {loops:.2} of a loop, {programs:.2} of a program");
    if strict && loops.max(programs) > LIMIT {
        println!("TOO SLOW: above {LIMIT:.1}");
        exit(1);
    }
}

fn main() {
    let arguments: Vec<String> = env::args().skip(1).collect();
    match arguments.iter().map(String::as_str).collect::<Vec<_>>()[..] {
        ["--counted", kind, slots, steps] => {
            counted::run(number(kind), number(slots), number(steps));
        }
        [folder] => all(Path::new(folder), false),
        [folder, "--strict"] => all(Path::new(folder), true),
        _ => usage(),
    }
}
