//! What the sessions have met, and how often 1,000,000 runs have to meet it.

use crate::changes::CHANGES;
use crate::least::Least;
use reference::Answer;

pub struct Met {
    pub sessions: u64,
    pub runs: u64,
    pub steps: u64,
    by_reason: [u64; 4],
    by_slots: [u64; 6],
    pub take_backs: u64,
    pub taken_back: u64,
    pub refused: u64,
    pub entered: [u64; 32],
    /// Accesses of data.
    pub by_opcode: [u64; 64],
    /// The last page asked for again, of fetches and of data, behind each change.
    pub again: [[u64; CHANGES.len()]; 2],
    /// With another answer than before.
    pub other: [[u64; CHANGES.len()]; 2],
    pub unchanged: u64,
    pub doubled: u64,
    pub gone: u64,
    pub invalid: u64,
    pub not_dirty: u64,
    /// The last page met where mode forbids it, and where nothing is translated.
    pub passed_by: [u64; 2],
    pub modified_code: u64,
    pub slot_on_next_page: u64,
    pub branched_to_a_page: u64,
    pub straight_to_a_page: u64,
}

impl Default for Met {
    fn default() -> Met {
        Met {
            sessions: 0,
            runs: 0,
            steps: 0,
            by_reason: [0; 4],
            by_slots: [0; 6],
            take_backs: 0,
            taken_back: 0,
            refused: 0,
            entered: [0; 32],
            by_opcode: [0; 64],
            again: [[0; CHANGES.len()]; 2],
            other: [[0; CHANGES.len()]; 2],
            unchanged: 0,
            doubled: 0,
            gone: 0,
            invalid: 0,
            not_dirty: 0,
            passed_by: [0; 2],
            modified_code: 0,
            slot_on_next_page: 0,
            branched_to_a_page: 0,
            straight_to_a_page: 0,
        }
    }
}

const CODES: [&str; 13] = [
    "0, interrupt",
    "1, Mod",
    "2, TLBL",
    "3, TLBS",
    "4, AdEL",
    "5, AdES",
    "6, IBE",
    "7, DBE",
    "8, Sys",
    "9, Bp",
    "10, RI",
    "11, CpU",
    "12, Ov",
];
const LEAST_CODES: [u64; 13] = [
    130_000, 90_000, 1_200_000, 120_000, 500_000, 64_000, 930_000, 320_000, 29_000, 28_000, 65_000,
    95_000, 72_000,
];

const ACCESSES: [(&str, usize); 12] = [
    ("LB", 0x20),
    ("LH", 0x21),
    ("LWL", 0x22),
    ("LW", 0x23),
    ("LBU", 0x24),
    ("LHU", 0x25),
    ("LWR", 0x26),
    ("SB", 0x28),
    ("SH", 0x29),
    ("SWL", 0x2A),
    ("SW", 0x2B),
    ("SWR", 0x2E),
];

/// Behind each change: the page asked for again, and with another answer.
const LEAST_AGAIN: [[u64; CHANGES.len()]; 2] = [
    [
        120_000, 190_000, 75_000, 7_800, 1_600_000, 430_000, 1_500_000, 1_200_000, 470_000,
        340_000, 290_000, 85_000,
    ],
    [
        29_000, 21_000, 7_900, 1_600, 320_000, 70_000, 320_000, 210_000, 140_000, 230_000, 62_000,
        21_000,
    ],
];
const LEAST_OTHER: [[u64; CHANGES.len()]; 2] = [
    [
        54_000, 66_000, 67_000, 6_000, 160_000, 35_000, 160_000, 140_000, 21_000, 760, 110_000,
        34_000,
    ],
    [6_000, 9_200, 4_700, 580, 16_000, 2_600, 16_000, 14_000, 4_700, 4_900, 10_000, 4_000],
];

impl Met {
    pub fn ran(&mut self, answer: Answer, slots: usize) {
        self.runs += 1;
        self.steps += u64::from(answer.steps);
        self.by_reason[answer.reason as usize] += 1;
        self.by_slots[slots.min(4) + usize::from(slots > 17)] += 1;
    }

    pub fn print(&self, least: &mut Least) {
        println!("pages: {} sessions", self.sessions);
        least.met("runs", self.runs, 1_000_000);
        least.met("steps", self.steps, 19_000_000);
        let reasons = ["the budget", "an exception", "two matches"];
        least.each(&reasons, "ended by", &self.by_reason[1..], &[480_000, 69_000, 46_000]);
        let slots = ["no slots", "1 slot", "2 slots", "3 slots", "17 slots", "512 slots"];
        least.each(
            &slots,
            "runs with",
            &self.by_slots,
            &[130_000, 92_000, 93_000, 93_000, 94_000, 93_000],
        );
        least.met("take-backs", self.take_backs, 230_000);
        least.met("steps taken back", self.taken_back, 950_000);
        least.met("take-backs refused with 7", self.refused, 33_000);
        self.print_steps(least);
        for (which, of) in ["fetches", "data"].iter().enumerate() {
            println!("pages: the last page of {of}, asked for again");
            least.each(&CHANGES, "behind", &self.again[which], &LEAST_AGAIN[which]);
            println!("pages: of these, with another answer");
            least.each(&CHANGES, "behind", &self.other[which], &LEAST_OTHER[which]);
        }
        self.print_pages(least);
    }

    fn print_steps(&self, least: &mut Least) {
        println!("pages: exceptions entered, and accesses");
        least.each(&CODES, "code", &self.entered, &LEAST_CODES);
        for (name, opcode) in ACCESSES {
            least.met(name, self.by_opcode[opcode], 170_000);
        }
    }

    fn print_pages(&self, least: &mut Least) {
        println!("pages: a page that was used last");
        least.met("nothing changed since", self.unchanged, 2_400_000);
        least.met("two entries match it now", self.doubled, 33_000);
        least.met("no entry matches it now", self.gone, 160_000);
        least.met("V is off now", self.invalid, 1_400);
        least.met("a store behind a load, D off", self.not_dirty, 11_000);
        least.met("the mode forbids it now", self.passed_by[0], 68_000);
        least.met("translation is off now", self.passed_by[1], 390_000);
        println!("pages: code");
        least.met("words that the same run had stored", self.modified_code, 20_000);
        least.met("straight to another page", self.straight_to_a_page, 57_000);
        least.met("a slot on another page than its branch", self.slot_on_next_page, 180_000);
        least.met("from a slot to another page", self.branched_to_a_page, 210_000);
    }
}
