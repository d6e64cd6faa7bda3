//! What was met, and how much of each must have been.

use crate::lines::{Heard, KINDS, REFUSED};

const NAMES: [&str; KINDS] = [
    "nothing",
    "new",
    "load",
    "run",
    "run exception",
    "stepi",
    "back",
    "blame",
    "before",
    "info registers",
    "info cp0",
    "info tlb",
    "info clocks",
    "info printers",
    "info station",
    "paper N",
    "paper",
    "x",
    "compare",
    "save",
    "restore",
    "quit",
    "abandon",
    "help",
    "refused",
];

#[derive(Default)]
pub struct Met {
    pub by_kind: [u64; KINDS],
    pub made: u64,
    pub mutated: u64,
    pub spliced: u64,
    pub random: u64,
    pub cut: u64,
    pub at_start: u64,
    pub in_the_middle: u64,
    pub at_end: u64,
    pub cut_commands: u64,
    pub largest: u64,
    pub too_large: u64,
    pub long_lines: u64,
    pub spaces_before: u64,
    pub spaces_behind: u64,
}

/// Twenty digits or more in front of a place are a number that was too large.
fn too_large(line: &[u8], place: usize) -> bool {
    let digits = line[place..].iter().take_while(|byte| byte.is_ascii_hexdigit() || **byte == b'x');
    digits.count() >= 17
}

impl Met {
    pub fn count(&mut self, line: &[u8], heard: &Heard) {
        let start = line.iter().take_while(|&&byte| byte == b' ').count();
        self.by_kind[heard[0] as usize] += 1;
        self.long_lines += u64::from(line.len() > 200);
        self.spaces_before += u64::from(start > 0);
        self.spaces_behind += u64::from(line.last() == Some(&b' '));
        if heard[0] != REFUSED {
            self.largest += u64::from(heard[1..].contains(&u64::MAX));
            return;
        }
        let place = heard[1] as usize;
        self.at_start += u64::from(place == start);
        self.at_end += u64::from(place == line.len());
        self.in_the_middle += u64::from(place > start && place < line.len());
        self.too_large += u64::from(place < line.len() && too_large(line, place));
    }

    /// Prints each count. Does each reach its share of the lines?
    pub fn enough(&self, lines: u64) -> bool {
        let kinds = NAMES.iter().zip(self.by_kind).map(|(name, count)| (*name, count, 1));
        let rest = [
            ("lines of a form", self.made, 300),
            ("lines changed in 1 to 3 places", self.mutated, 300),
            ("lines put together of two", self.spliced, 30),
            ("lines of any bytes", self.random, 30),
            ("lines cut short", self.cut, 5_000),
            ("of them commands", self.cut_commands, 500),
            ("refused at the first byte", self.at_start, 50),
            ("refused in the middle", self.in_the_middle, 500),
            ("refused at the end", self.at_end, 1_000),
            ("refused for a number that is too large", self.too_large, 50),
            ("with the largest number", self.largest, 20),
            ("of more than 200 bytes", self.long_lines, 1),
            ("with spaces before", self.spaces_before, 50),
            ("with spaces behind", self.spaces_behind, 50),
        ];
        let mut enough = true;
        for (name, count, per_thousand) in kinds.chain(rest) {
            println!("lines: {count:>9} {name}");
            if count < lines * per_thousand / 1_000 {
                eprintln!("lines: that is too few: at least {per_thousand} for 1,000 lines");
                enough = false;
            }
        }
        enough
    }
}
