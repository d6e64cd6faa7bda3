//! What the tests print: a difference, which ends them, and counts.

use std::fmt::Display;
use std::process::exit;

/// Prints the first differing case and ends the program.
pub fn different(call: &str, lines: &[String]) -> ! {
    println!("DIFFERENT: {call}");
    for line in lines {
        println!("  {line}");
    }
    exit(1)
}

/// Prints a count, and ends the program if the tests have met too few: they
/// would pass without having looked.
pub fn at_least(what: impl Display, count: u64, least: u64) {
    println!("  {what}: {count}");
    if count < least {
        println!("TOO FEW: {what}: {count}, expected at least {least}");
        exit(1);
    }
}

pub fn unpacked(answer: u64) -> String {
    format!(
        "{answer:#018x} (number {}, reason {}, steps {})",
        answer & 0xFF,
        answer >> 8 & 0xFF,
        answer >> 32
    )
}

/// What a call of the archive answered, or what it did wrong.
pub fn said(answer: &Result<u64, String>, show: fn(u64) -> String) -> String {
    match answer {
        Ok(answer) => show(*answer),
        Err(wrong) => wrong.clone(),
    }
}

pub fn plain(answer: u64) -> String {
    answer.to_string()
}

pub fn hex(bytes: &[u8]) -> String {
    bytes.iter().map(|byte| format!("{byte:02x}")).collect()
}
