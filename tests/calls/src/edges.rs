//! Edge values: of words of the image, and of the numbers of a call.

use crate::fields::*;
use crate::valid::Case;

/// Where a word starts: the length word, and every word behind the version.
pub const PLACES: [usize; WORDS + 1] = places();

const fn places() -> [usize; WORDS + 1] {
    let mut places = [0; WORDS + 1];
    let mut word = 0;
    while word < WORDS {
        places[word + 1] = FIRST_WORD + 4 * word;
        word += 1;
    }
    places
}

#[rustfmt::skip]
const WORD_EDGES: [u32; 45] = [
    0, 1, 2, 3, 4, 5, 6, 7, 8, 0x0F, 0x10, 0x34, 0x3F, 0x40, 0x7F, 0x80, 0xFF, 0x100, 0xF00, 0xF01,
    0x1000, 0x1F00, 0x3F00, 0x4000, 0x7FFF, 0x8000, 0xFFFE, 0xFFFF, 0x1_0000, 0x1_0001,
    LENGTH_WORD - 1, LENGTH_WORD, LENGTH_WORD + 1, OLD_LENGTH_WORD, 0x1740_FF3F, 0xB000_FF7C, 0x8000_3F00, 0xFFFF_FFC0, 0xFFFF_FF00, 0x7FFF_FFFF, 0x8000_0000,
    0x8000_0001, 0xFFFF_FFFE, 0xFFFF_FFFF, 0x00FF_FFFF,
];

/// The edge values of all words, those that follow from the rest of the image,
/// and the neighbours of the word that is there.
pub fn words_for(case: &Case, place: usize) -> Vec<u32> {
    let there = match place {
        0 => case.length_word,
        _ => case.words[(place - FIRST_WORD) / 4],
    };
    let delay = case.words[PRINTER_DELAY];
    let mut words = WORD_EDGES.to_vec();
    words.extend_from_slice(&[
        delay - 1,
        delay,
        delay + 1,
        case.eighth.wrapping_sub(1),
        case.eighth,
        case.eighth + 1,
        case.slots.wrapping_sub(1),
        case.slots,
        case.slots + 1,
        case.words[INSTALLED],
        case.words[PENDING],
        there.wrapping_sub(1),
        there.wrapping_add(1),
        !there,
    ]);
    words
}

/// Edges of the three numbers of reset, and of numbers in general. Those past
/// 2^32 would be good ones if only the low 32 bits were looked at.
#[rustfmt::skip]
pub const NUMBER_EDGES: [u64; 26] = [
    0, 1, 2, 127, 128, 254, 255, 256, 257, 65_534, 65_535, 65_536, 65_537,
    (1 << 31) - 1, 1 << 31, (1 << 32) - 1, 1 << 32, (1 << 32) + 1, (1 << 32) + 255,
    (1 << 32) + 256, (1 << 32) + 65_535, (1 << 40) + 1,
    1 << 63, (1 << 63) + 1, u64::MAX - 1, u64::MAX,
];
