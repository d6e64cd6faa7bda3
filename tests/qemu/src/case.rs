//! A case and where it lies in memory, the same on both sides.

pub const BATCH: usize = 4096;
pub const BLOCK_WORDS: usize = 8;
pub const CODE_WORDS: usize = 16;
pub const STATES_AT: u32 = 0x2040_0000;
pub const CODE_AT: u32 = 0x2050_0000;

/// The instruction under test lies here in its code; all words before it and
/// from `FREE_FROM` on are BREAK, so that jumps may land on them.
pub const MAIN_WORD: u32 = 8;
pub const FREE_FROM: u32 = 11;

pub const BREAK: u32 = 13;

/// Words of a state: 32 registers, HI, LO, PC, signal, the block.
pub const STATE_WORDS: usize = 36 + BLOCK_WORDS;

#[derive(Clone, Debug, PartialEq, Eq)]
pub struct State {
    pub registers: [u32; 32],
    pub hi: u32,
    pub lo: u32,
    pub pc: u32,
    pub signal: u32,
    pub block: [u32; BLOCK_WORDS],
}

#[derive(Clone, Debug)]
pub struct Case {
    /// Index in the table of instructions.
    pub instruction: usize,
    pub before: State,
    pub code: [u32; CODE_WORDS],
}

impl State {
    pub fn words(&self) -> Vec<u32> {
        let mut words = self.registers.to_vec();
        words.extend([self.hi, self.lo, self.pc, self.signal]);
        words.extend(self.block);
        words
    }

    pub fn from_words(words: &[u32]) -> State {
        State {
            registers: words[..32].try_into().unwrap(),
            hi: words[32],
            lo: words[33],
            pc: words[34],
            signal: words[35],
            block: words[36..].try_into().unwrap(),
        }
    }
}

/// Address of the memory block of the case in this slot of the batch.
pub fn block_at(slot: usize) -> u32 {
    STATES_AT + (slot * STATE_WORDS * 4 + 36 * 4) as u32
}

pub fn code_at(slot: usize) -> u32 {
    CODE_AT + (slot * CODE_WORDS * 4) as u32
}

pub fn bytes_of(words: impl Iterator<Item = u32>) -> Vec<u8> {
    words.flat_map(u32::to_le_bytes).collect()
}

pub fn words_of(bytes: &[u8]) -> Vec<u32> {
    bytes.chunks_exact(4).map(|four| u32::from_le_bytes(four.try_into().unwrap())).collect()
}
