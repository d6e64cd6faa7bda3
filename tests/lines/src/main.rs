//! Compares the station's reader of lines, through its archive for tests, with
//! one that was written from docs/COMMANDS.md alone.
//!
//! `lines [SEED [LINES]]`. Exit 0: all equal and all counts met; 1: not so.

#[path = "../../common/arguments.rs"]
mod arguments;
#[allow(dead_code)]
#[path = "../../common/dice.rs"]
mod dice;
#[allow(dead_code)]
#[path = "../../common/guarded.rs"]
mod guarded;

mod archive;
mod lines;
mod make;
mod met;
mod mutate;

use dice::Dice;
use lines::{Page, NOTHING, REFUSED};
use met::Met;
use std::process::exit;

const DEFAULT_LINES: u64 = 100_000;

/// Longer lines, of any bytes, are cut at so many places from their start.
const MOST_CUTS: usize = 400;

fn compare(page: &Page, line: &[u8], met: &mut Met) -> u64 {
    let (ours, theirs) = (page.read(line), archive::heard(line));
    if ours != theirs {
        eprintln!("lines: not equal: {:?}", String::from_utf8_lossy(line));
        eprintln!("lines: its bytes: {line:02x?}");
        eprintln!("lines: by the page {ours:?}, by the archive {theirs:?}");
        exit(1);
    }
    met.count(line, &ours);
    ours[0]
}

fn any_line(dice: &mut Dice, met: &mut Met) -> Vec<u8> {
    match dice.below(12) {
        0..=4 => {
            met.made += 1;
            make::line(dice)
        }
        5..=9 => {
            met.mutated += 1;
            mutate::line(dice)
        }
        10 => {
            met.spliced += 1;
            mutate::spliced(dice)
        }
        _ => {
            met.random += 1;
            mutate::random(dice)
        }
    }
}

fn main() {
    let seed = arguments::seed();
    let lines = arguments::amount("number of lines", DEFAULT_LINES);
    println!("lines: seed {seed}, {lines} lines, each cut at every byte");
    let dice = &mut Dice::new(seed);
    let met = &mut Met::default();
    let page = &Page::new();
    for _ in 0..lines {
        let line = any_line(dice, met);
        compare(page, &line, met);
        for length in 0..line.len().min(MOST_CUTS) {
            let kind = compare(page, &line[..length], met);
            met.cut += 1;
            met.cut_commands += u64::from(kind != NOTHING && kind != REFUSED);
        }
    }
    if !met.enough(lines) {
        exit(1);
    }
    println!("lines: all equal");
}
