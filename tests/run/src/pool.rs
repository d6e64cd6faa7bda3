//! A store of random words and bytes, made once: lent buffers are filled from
//! it at a random place, which is much quicker than dice for every byte.

use crate::dice::Dice;
use crate::words::instruction;

const WORDS: usize = 1 << 16;

pub struct Pool {
    code: Vec<u8>,
    bytes: Vec<u8>,
}

impl Pool {
    pub fn new(dice: &mut Dice) -> Pool {
        let code = (0..WORDS).flat_map(|_| instruction(dice).to_le_bytes()).collect();
        let bytes = (0..WORDS).flat_map(|_| dice.word().to_le_bytes()).collect();
        Pool { code, bytes }
    }

    /// Instructions.
    pub fn code(&self, dice: &mut Dice, length: usize) -> Vec<u8> {
        filled(&self.code, dice, length)
    }

    /// Anything.
    pub fn bytes(&self, dice: &mut Dice, length: usize) -> Vec<u8> {
        filled(&self.bytes, dice, length)
    }
}

fn filled(from: &[u8], dice: &mut Dice, length: usize) -> Vec<u8> {
    let mut start = 4 * dice.below(WORDS as u32) as usize;
    let mut bytes = Vec::with_capacity(length);
    while bytes.len() < length {
        let part = (length - bytes.len()).min(from.len() - start);
        bytes.extend_from_slice(&from[start..start + part]);
        start = 0;
    }
    bytes
}
