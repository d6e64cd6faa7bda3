//! A store of random words and bytes, made once: lent buffers are filled from
//! it at a random place, which is much quicker than dice for every byte.

use crate::dice::Dice;
use crate::words;

const WORDS: u32 = 1 << 16;

/// The longest buffer that is asked for.
const MOST: u32 = 1 << 14;

pub struct Pool {
    code: Vec<u8>,
    bytes: Vec<u8>,
}

impl Pool {
    pub fn new(dice: &mut Dice) -> Pool {
        let count = WORDS + MOST / 4;
        let code = (0..count).flat_map(|_| words::any(dice).to_le_bytes()).collect();
        let bytes = (0..count).flat_map(|_| dice.word().to_le_bytes()).collect();
        Pool { code, bytes }
    }

    pub fn code(&self, dice: &mut Dice, length: usize) -> Vec<u8> {
        part(&self.code, dice, length)
    }

    pub fn bytes(&self, dice: &mut Dice, length: usize) -> Vec<u8> {
        part(&self.bytes, dice, length)
    }
}

fn part(from: &[u8], dice: &mut Dice, length: usize) -> Vec<u8> {
    from[4 * dice.below(WORDS) as usize..][..length].to_vec()
}
