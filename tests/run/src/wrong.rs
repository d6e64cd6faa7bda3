//! Values of what run is given: right ones and wrong ones, edges first.

use crate::dice::Dice;
use crate::fields::{IMAGE_BYTES, OLD_IMAGE_BYTES};

/// One length or number, with whether it passes its row.
pub struct Choices {
    pub name: &'static str,
    /// The number that a wrong one is answered with.
    pub row: u8,
    pub right: &'static [u64],
    pub wrong: &'static [u64],
    /// How many at the start of each are cheap; the others are long buffers.
    pub cheap: (usize, usize),
}

pub const RAM: usize = 0;
pub const EXECUTION: usize = 1;
pub const BOOTSTRAP: usize = 2;
pub const PAPER: usize = 3;
pub const JOURNAL: usize = 4;
pub const IMAGE: usize = 5;
pub const BUDGET: usize = 6;

const MOST_RAM: u64 = 4_096 * 4_096;
const MOST_JOURNAL: u64 = 16_777_216;
const WHOLE: u64 = IMAGE_BYTES as u64;
const OLD: u64 = OLD_IMAGE_BYTES as u64;

const ROM_RIGHT: &[u64] = &[4, 8, 12, 512, 65_532, 65_536];
#[rustfmt::skip]
const ROM_WRONG: &[u64] = &[0, 1, 2, 3, 5, 6, 510, 65_535, 65_537, 65_538, 65_540, 65_544, 131_072];

#[rustfmt::skip]
pub const CHOICES: [Choices; 7] = [
    Choices {
        name: "RAM", row: 1,
        right: &[4_096, 8_192, 12_288, MOST_RAM],
        wrong: &[
            0, 1, 256, 4_095, 4_097, 4_100, 8_191, 12_292,
            MOST_RAM - 1, MOST_RAM + 1, MOST_RAM + 4_096,
        ],
        cheap: (3, 8),
    },
    Choices { name: "execution ROM", row: 2, right: ROM_RIGHT, wrong: ROM_WRONG, cheap: (6, 13) },
    Choices { name: "bootstrap ROM", row: 2, right: ROM_RIGHT, wrong: ROM_WRONG, cheap: (6, 13) },
    Choices {
        name: "paper", row: 3,
        right: &[0, 8, 16, 64, 65_528, 65_536],
        wrong: &[1, 4, 7, 9, 12, 65_535, 65_537, 65_540, 65_544, 131_072],
        cheap: (6, 10),
    },
    Choices {
        name: "journal", row: 4,
        right: &[0, 512, 1_024, 1_536, 8_704, MOST_JOURNAL],
        wrong: &[
            1, 8, 128, 256, 511, 513, 768,
            MOST_JOURNAL - 256, MOST_JOURNAL + 1, MOST_JOURNAL + 256, MOST_JOURNAL + 512,
        ],
        cheap: (5, 7),
    },
    Choices {
        name: "image", row: 5,
        right: &[WHOLE],
        wrong: &[0, 1, 4, 5, WHOLE - 4, WHOLE - 1, WHOLE + 1, WHOLE + 4, 2 * WHOLE, OLD],
        cheap: (1, 10),
    },
    Choices {
        name: "budget", row: 6,
        right: &[0, 1, 2, 7, 999_999, 1_000_000],
        wrong: &[
            1_000_001, 1_000_002, 1 << 20, 1 << 31, (1 << 32) - 1, 1 << 32, (1 << 32) + 1,
            (1 << 32) + 1_000_000, 1 << 40, 1 << 63, (1 << 63) + 1, u64::MAX,
        ],
        cheap: (6, 12),
    },
];

/// One value of each, all cheap; bit k of `wrong` makes the k-th a wrong one.
pub fn values(dice: &mut Dice, wrong: u32) -> [u64; 7] {
    let mut values = [0; 7];
    for (place, choices) in CHOICES.iter().enumerate() {
        values[place] = if wrong >> place & 1 != 0 {
            dice.pick(&choices.wrong[..choices.cheap.1])
        } else {
            dice.pick(&choices.right[..choices.cheap.0])
        };
    }
    values
}
