//! Counts that have to be enough, or the tests would pass without having
//! looked.

use std::fmt::Display;
use std::process::exit;

/// With less than the whole, half as much in proportion has to be met. All
/// counts are printed before the program ends for those that are too low.
pub struct Least {
    part: u64,
    whole: u64,
    too_few: Vec<String>,
}

impl Least {
    pub fn new(part: u64, whole: u64) -> Least {
        Least { part, whole, too_few: Vec::new() }
    }

    pub fn met(&mut self, what: impl Display, count: u64, least: u64) {
        let Least { part, whole, .. } = *self;
        let least = if part < whole { least * part / whole / 2 } else { least };
        println!("  {what}: {count}");
        if count < least {
            self.too_few.push(format!("TOO FEW: {what}: {count}, expected at least {least}"));
        }
    }

    pub fn each<Name: Display>(
        &mut self,
        names: &[Name],
        what: &str,
        counts: &[u64],
        least: &[u64],
    ) {
        for ((name, count), least) in names.iter().zip(counts).zip(least) {
            self.met(format!("{what} {name}"), *count, *least);
        }
    }

    /// Of kinds with a name, a least count and what they are met by.
    pub fn kinds<Met>(&mut self, counts: &[u64], kinds: &[(&str, u64, Met)]) {
        for (count, (name, least, _)) in counts.iter().zip(kinds) {
            self.met(name, *count, *least);
        }
    }

    pub fn end(&self) {
        if !self.too_few.is_empty() {
            println!("{}", self.too_few.join("\n"));
            exit(1);
        }
    }
}

pub fn lowest(counts: &[u64]) -> u64 {
    counts.iter().copied().min().unwrap_or(0)
}
