//! The instructions of the book, by name: which bits of a word are fixed.

pub struct Instruction {
    pub name: &'static str,
    pub mask: u32,
    pub fixed: u32,
}

const OPCODE: u32 = 0xFC00_0000;
/// The function counts only under opcode 0, the branch's code in rt only under 1.
const OPCODE_AND_FUNCTION: u32 = 0xFC00_003F;
const OPCODE_AND_RT: u32 = 0xFC1F_0000;
const OPCODE_AND_RS: u32 = 0xFFE0_0000;
/// Bit 25 tells CP0's own functions; the bits between are ignored.
const CONTROL_FUNCTION: u32 = 0xFE00_003F;

const fn op(name: &'static str, opcode: u32) -> Instruction {
    Instruction { name, mask: OPCODE, fixed: opcode << 26 }
}

const fn special(name: &'static str, function: u32) -> Instruction {
    Instruction { name, mask: OPCODE_AND_FUNCTION, fixed: function }
}

const fn bcond(name: &'static str, code: u32) -> Instruction {
    Instruction { name, mask: OPCODE_AND_RT, fixed: 1 << 26 | code << 16 }
}

const fn control(name: &'static str, function: u32) -> Instruction {
    Instruction { name, mask: CONTROL_FUNCTION, fixed: 0x4200_0000 | function }
}

const fn moves(name: &'static str, rs: u32) -> Instruction {
    Instruction { name, mask: OPCODE_AND_RS, fixed: 0x4000_0000 | rs << 21 }
}

#[rustfmt::skip]
pub const COMPUTE: [Instruction; 24] = [
    special("SLL", 0), special("SRL", 2), special("SRA", 3), special("SLLV", 4),
    special("SRLV", 6), special("SRAV", 7), special("MFHI", 16), special("MTHI", 17),
    special("MFLO", 18), special("MTLO", 19), special("MULT", 24), special("MULTU", 25),
    special("DIV", 26), special("DIVU", 27), special("ADD", 32), special("ADDU", 33),
    special("SUB", 34), special("SUBU", 35), special("AND", 36), special("OR", 37),
    special("XOR", 38), special("NOR", 39), special("SLT", 42), special("SLTU", 43),
];

#[rustfmt::skip]
pub const IMMEDIATE: [Instruction; 8] = [
    op("ADDI", 8), op("ADDIU", 9), op("SLTI", 10), op("SLTIU", 11),
    op("ANDI", 12), op("ORI", 13), op("XORI", 14), op("LUI", 15),
];

#[rustfmt::skip]
pub const BRANCH: [Instruction; 8] = [
    op("BEQ", 4), op("BNE", 5), op("BLEZ", 6), op("BGTZ", 7),
    bcond("BLTZ", 0), bcond("BGEZ", 1), bcond("BLTZAL", 16), bcond("BGEZAL", 17),
];

pub const JUMP: [Instruction; 4] = [op("J", 2), op("JAL", 3), special("JR", 8), special("JALR", 9)];

#[rustfmt::skip]
pub const LOAD: [Instruction; 7] = [
    op("LB", 0x20), op("LH", 0x21), op("LWL", 0x22), op("LW", 0x23),
    op("LBU", 0x24), op("LHU", 0x25), op("LWR", 0x26),
];

pub const STORE: [Instruction; 5] =
    [op("SB", 0x28), op("SH", 0x29), op("SWL", 0x2A), op("SW", 0x2B), op("SWR", 0x2E)];

#[rustfmt::skip]
pub const CONTROL: [Instruction; 7] = [
    moves("MFC0", 0), moves("MTC0", 4), control("TLBR", 1), control("TLBWI", 2),
    control("TLBWR", 6), control("TLBP", 8), control("RFE", 16),
];

pub const TRAP: [Instruction; 2] = [special("SYSCALL", 12), special("BREAK", 13)];

pub const LW: u32 = 0x23;
pub const SW: u32 = 0x2B;

pub fn all() -> impl Iterator<Item = &'static Instruction> {
    COMPUTE
        .iter()
        .chain(&IMMEDIATE)
        .chain(&BRANCH)
        .chain(&JUMP)
        .chain(&LOAD)
        .chain(&STORE)
        .chain(&CONTROL)
        .chain(&TRAP)
}

pub fn opcode(word: u32) -> u32 {
    word >> 26
}

pub fn rs(word: u32) -> usize {
    (word >> 21 & 31) as usize
}

pub fn rt(word: u32) -> usize {
    (word >> 16 & 31) as usize
}

pub fn rd(word: u32) -> usize {
    (word >> 11 & 31) as usize
}

pub fn function(word: u32) -> u32 {
    word & 63
}

/// The immediate, sign-extended.
pub fn offset(word: u32) -> u32 {
    word as u16 as i16 as u32
}

pub fn loads(word: u32) -> bool {
    (0x20..=0x26).contains(&opcode(word))
}

pub fn stores(word: u32) -> bool {
    matches!(opcode(word), 0x28..=0x2B | 0x2E)
}
