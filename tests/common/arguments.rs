//! The numbers that a comparison is started with: its seed, and how much it
//! compares.

use std::env;
use std::process::exit;

const DEFAULT_SEED: u64 = 1;

pub fn argument(place: usize, name: &str, otherwise: u64) -> u64 {
    match env::args().nth(place) {
        None => otherwise,
        Some(text) => text.parse().unwrap_or_else(|_| {
            eprintln!("{}: the {name} is a number, not {text:?}", env!("CARGO_PKG_NAME"));
            exit(2)
        }),
    }
}

pub fn seed() -> u64 {
    argument(1, "seed", DEFAULT_SEED)
}

pub fn amount(name: &str, otherwise: u64) -> u64 {
    argument(2, name, otherwise)
}
