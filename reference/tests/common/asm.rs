//! Instruction words by mnemonic.
#![allow(dead_code)]

pub const fn special(function: u32, rs: u32, rt: u32, rd: u32) -> u32 {
    rs << 21 | rt << 16 | rd << 11 | function
}

pub const fn immediate(opcode: u32, rs: u32, rt: u32, value: u32) -> u32 {
    opcode << 26 | rs << 21 | rt << 16 | value & 0xFFFF
}

pub const NOP: u32 = 0;
pub const SYSCALL: u32 = 12;
pub const BREAK: u32 = 13;
pub const TLBR: u32 = 0x4200_0001;
pub const TLBWI: u32 = 0x4200_0002;
pub const TLBWR: u32 = 0x4200_0006;
pub const TLBP: u32 = 0x4200_0008;
pub const RFE: u32 = 0x4200_0010;

pub const INDEX: u32 = 0;
pub const RANDOM: u32 = 1;
pub const ENTRY_LO: u32 = 2;
pub const BAD_VADDR: u32 = 8;
pub const ENTRY_HI: u32 = 10;
pub const STATUS: u32 = 12;
pub const CAUSE: u32 = 13;
pub const EPC: u32 = 14;

pub const fn lw(rt: u32, offset: u32, rs: u32) -> u32 {
    immediate(0x23, rs, rt, offset)
}

pub const fn sw(rt: u32, offset: u32, rs: u32) -> u32 {
    immediate(0x2B, rs, rt, offset)
}

pub const fn addi(rt: u32, rs: u32, value: u32) -> u32 {
    immediate(0x08, rs, rt, value)
}

pub const fn addiu(rt: u32, rs: u32, value: u32) -> u32 {
    immediate(0x09, rs, rt, value)
}

pub const fn beq(rs: u32, rt: u32, offset: u32) -> u32 {
    immediate(0x04, rs, rt, offset)
}

pub const fn bne(rs: u32, rt: u32, offset: u32) -> u32 {
    immediate(0x05, rs, rt, offset)
}

/// `which`: 0 BLTZ, 1 BGEZ, 16 BLTZAL, 17 BGEZAL.
pub const fn bcond(which: u32, rs: u32, offset: u32) -> u32 {
    immediate(0x01, rs, which, offset)
}

pub const fn j(target: u32) -> u32 {
    0x02 << 26 | target >> 2 & 0x03FF_FFFF
}

pub const fn jal(target: u32) -> u32 {
    0x03 << 26 | target >> 2 & 0x03FF_FFFF
}

pub const fn jr(rs: u32) -> u32 {
    special(8, rs, 0, 0)
}

pub const fn jalr(rd: u32, rs: u32) -> u32 {
    special(9, rs, 0, rd)
}

pub const fn mfc0(rt: u32, number: u32) -> u32 {
    0x10 << 26 | rt << 16 | number << 11
}

pub const fn mtc0(rt: u32, number: u32) -> u32 {
    0x10 << 26 | 4 << 21 | rt << 16 | number << 11
}
