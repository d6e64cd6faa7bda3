//! Fields of an instruction word.

/// The opcode of coprocessor 0.
pub const COP0: u32 = 0x10;

pub fn opcode(word: u32) -> u32 {
    word >> 26
}

pub fn rs(word: u32) -> u32 {
    word >> 21 & 31
}

pub fn rt(word: u32) -> u32 {
    word >> 16 & 31
}

pub fn rd(word: u32) -> u32 {
    word >> 11 & 31
}

pub fn shift_amount(word: u32) -> u32 {
    word >> 6 & 31
}

pub fn function(word: u32) -> u32 {
    word & 63
}

pub fn signed_immediate(word: u32) -> u32 {
    word as u16 as i16 as u32
}

pub fn unsigned_immediate(word: u32) -> u32 {
    word & 0xFFFF
}
