//! Which corners the valid images have reached.

use crate::fields::*;
use crate::report::at_least;
use crate::valid::{Case, BUSY, MOST_PAPER, MOST_SLOTS};
use std::collections::HashSet;

#[derive(Default)]
pub struct Seen {
    installed_maps: HashSet<u32>,
    pending_maps: HashSet<u32>,
    randoms: HashSet<u32>,
    exc_codes: HashSet<u32>,
    papers: HashSet<u64>,
    journals: HashSet<u64>,
    statuses: [u64; 4],
    statuses_pending: [u64; 4],
    cause_lines: [u64; 8],
    busy_commands: [u64; 3],
    corners: [u64; CORNERS.len()],
}

type Corner = (&'static str, fn(&Case) -> bool);

const CORNERS: [Corner; 27] = [
    ("time scale 1", |case| case.words[TIME_SCALE] == 1),
    ("time scale 255", |case| case.words[TIME_SCALE] == 255),
    ("printer delay 1", |case| case.words[PRINTER_DELAY] == 1),
    ("printer delay 65,535", |case| case.words[PRINTER_DELAY] == 65_535),
    ("a busy printer with 1 tick left", |case| {
        (0..8).any(|printer| case.busy(printer) && case.printer(printer, PRINTER_TICKS) == 1)
    }),
    ("a busy printer with the whole delay left", |case| {
        let delay = case.words[PRINTER_DELAY];
        (0..8).any(|printer| case.busy(printer) && case.printer(printer, PRINTER_TICKS) == delay)
    }),
    ("an idle printer with COMMAND over 4", |case| {
        (0..8).any(|printer| !case.busy(printer) && case.printer(printer, PRINTER_COMMAND) > 4)
    }),
    ("a full eighth of the paper", |case| {
        (0..8).any(|printer| case.installed(printer) && count_is(case, printer, case.eighth))
    }),
    ("an empty eighth of the paper", |case| {
        (0..8).any(|printer| case.installed(printer) && count_is(case, printer, 0))
    }),
    ("no paper", |case| case.eighth == 0),
    ("8 bytes of paper", |case| case.eighth == 1),
    ("the most paper", |case| case.eighth == MOST_PAPER / 8),
    ("no journal", |case| case.slots == 0),
    ("512 bytes of journal", |case| case.slots == 1),
    ("the longest journal", |case| case.slots == MOST_SLOTS),
    ("nothing on hand, some slots", |case| case.slots != 0 && case.words[ON_HAND] == 0),
    ("every slot on hand", |case| case.slots != 0 && case.words[ON_HAND] == case.slots),
    ("next slot 0, some slots", |case| case.slots != 0 && case.words[NEXT_SLOT] == 0),
    ("next slot the last", |case| case.slots > 1 && case.words[NEXT_SLOT] == case.slots - 1),
    ("Index with P on and a field", |case| case.words[INDEX] > 0x8000_0000),
    ("Status with all bits of its mask", |case| case.words[STATUS] == 0x1740_FF3F),
    ("Cause with BD on", |case| case.words[CAUSE] >> 31 != 0),
    ("Cause with CE not 0", |case| case.words[CAUSE] >> 28 & 3 != 0),
    ("odd PC", |case| case.words[33] & 1 != 0),
    ("the slot flag off", |case| case.words[SLOT_FLAG] == 0),
    ("the slot flag on and a branch address", |case| case.words[BRANCH_ADDRESS] != 0),
    ("the slot flag on and branch address 0", |case| {
        case.words[SLOT_FLAG] == 1 && case.words[BRANCH_ADDRESS] == 0
    }),
];

fn count_is(case: &Case, printer: usize, count: u32) -> bool {
    case.printer(printer, PRINTER_COUNT) == count
}

impl Seen {
    pub fn add(&mut self, case: &Case) {
        self.installed_maps.insert(case.words[INSTALLED]);
        self.pending_maps.insert(case.words[PENDING]);
        self.randoms.insert(case.words[RANDOM]);
        self.exc_codes.insert(case.words[CAUSE] >> 2 & 31);
        self.papers.insert(case.paper());
        self.journals.insert(case.journal());
        for (line, count) in self.cause_lines.iter_mut().enumerate() {
            *count += u64::from(case.words[CAUSE] >> (8 + line) & 1);
        }
        for printer in (0..8).filter(|printer| case.installed(*printer)) {
            let status = case.printer(printer, PRINTER_STATUS);
            self.statuses[status as usize - 1] += 1;
            self.statuses_pending[status as usize - 1] += u64::from(case.pending(printer));
            if status == BUSY {
                self.busy_commands[case.printer(printer, PRINTER_COMMAND) as usize] += 1;
            }
        }
        for (count, (_, reached)) in self.corners.iter_mut().zip(&CORNERS) {
            *count += u64::from(reached(case));
        }
    }

    /// Prints what the valid images have reached; each count has to be enough.
    pub fn report(&self) {
        println!("rules: corners of the valid images");
        at_least("installed maps", self.installed_maps.len() as u64, 256);
        at_least("pending maps", self.pending_maps.len() as u64, 256);
        at_least("Random fields", self.randoms.len() as u64, 15);
        at_least("ExcCodes", self.exc_codes.len() as u64, 13);
        at_least("lengths of paper, of 8,193", self.papers.len() as u64, 8_193);
        at_least("lengths of journal, of 32,769", self.journals.len() as u64, 30_000);
        for (place, count) in self.statuses.iter().enumerate() {
            at_least(format!("printers with STATUS {}", place + 1), *count, 10_000);
        }
        for status in [1, 2, 4] {
            let count = self.statuses_pending[status - 1];
            at_least(format!("pending printers with STATUS {status}"), count, 10_000);
        }
        for line in [0, 1, 2, 6] {
            at_least(format!("images with IP[{line}] on"), self.cause_lines[line], 10_000);
        }
        for command in [0, 2] {
            let count = self.busy_commands[command];
            at_least(format!("busy printers with COMMAND {command}"), count, 10_000);
        }
        for (count, (name, _)) in self.corners.iter().zip(&CORNERS) {
            at_least(format!("images with {name}"), *count, 1_000);
        }
    }
}
