//! Random bytes, made once: lent buffers are filled from a random place of them,
//! which is much quicker than dice for every byte.

use crate::dice::Dice;

const BYTES: usize = 1 << 17;

pub struct Pool(Vec<u8>);

impl Pool {
    pub fn new(dice: &mut Dice) -> Pool {
        Pool(dice.bytes(BYTES))
    }

    pub fn bytes(&self, dice: &mut Dice, length: usize) -> Vec<u8> {
        let mut start = dice.below(BYTES as u32) as usize;
        let mut bytes = Vec::with_capacity(length);
        while bytes.len() < length {
            let end = BYTES.min(start + length - bytes.len());
            bytes.extend_from_slice(&self.0[start..end]);
            start = 0;
        }
        bytes
    }
}
