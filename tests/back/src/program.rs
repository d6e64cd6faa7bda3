//! The program of the soak: a user program under a small kernel, without an
//! end. It stores, misses in the table, raises exceptions on purpose, is
//! interrupted by the timer, and keeps eight printers at work.
//!
//! A handler that goes on behind an exception in a branch's slot loses the branch,
//! so that no branch here matters: what follows is as good.

use crate::asm::*;

const DEVICES: u32 = 0x1000;
const PRINTERS: u32 = 0x1D0;
const CLOCK_LOW: u32 = 0x1C;
const TIMER: u32 = 0x20;

pub const FRAMES: usize = 32;

/// User mode, translation and interrupts of lines 2 and 6, from the next RFE on.
const USER: u32 = 0x0200_440C;

/// The user program's first page, mapped to RAM's first frame.
const PAGE: u32 = 0x8000_0000;

fn lui(rt: u32, value: u32) -> u32 {
    immediate(0x0F, 0, rt, value)
}

fn ori(rt: u32, rs: u32, value: u32) -> u32 {
    immediate(0x0D, rs, rt, value)
}

fn andi(rt: u32, rs: u32, value: u32) -> u32 {
    immediate(0x0C, rs, rt, value)
}

fn sll(rd: u32, rt: u32, by: u32) -> u32 {
    special(0, 0, rt, rd) | by << 6
}

fn srl(rd: u32, rt: u32, by: u32) -> u32 {
    special(2, 0, rt, rd) | by << 6
}

fn addu(rd: u32, rs: u32, rt: u32) -> u32 {
    special(0x21, rs, rt, rd)
}

fn load(register: u32, value: u32) -> [u32; 2] {
    [lui(register, value >> 16), ori(register, register, value)]
}

fn bytes(words: impl IntoIterator<Item = u32>) -> Vec<u8> {
    words.into_iter().flat_map(u32::to_le_bytes).collect()
}

/// Starts the printers and the timer, and goes to the user program.
pub fn bootstrap_rom() -> Vec<u8> {
    let mut words = vec![lui(27, DEVICES), addiu(26, 0, 2)];
    words.extend((0..8).map(|number| sw(26, PRINTERS + 16 * number + 4, 27)));
    words.extend([addiu(26, 0, 500), sw(26, TIMER, 27)]);
    words.extend(load(16, 1_664_525));
    words.extend(load(17, 1_013_904_223));
    words.extend(load(18, 0x7FFF_FFFF));
    words.extend(load(19, PAGE + 0x1000));
    words.extend(load(26, USER));
    words.push(mtc0(26, STATUS));
    words.extend(load(26, PAGE));
    words.extend([jr(26), RFE]);
    bytes(words)
}

/// A miss maps the page to the frame of its number modulo 64; the upper half of
/// those is not there, and only odd ones may be stored to.
fn refill() -> Vec<u32> {
    vec![
        mfc0(26, ENTRY_HI),
        srl(26, 26, 12),
        andi(27, 26, 1),
        sll(27, 27, 10),
        ori(27, 27, 0x200),
        andi(26, 26, 63),
        sll(26, 26, 12),
        addu(26, 26, 27),
        lui(27, 0x2000),
        addu(26, 26, 27),
        mtc0(26, ENTRY_LO),
        TLBWR,
        mfc0(26, EPC),
        jr(26),
        RFE,
    ]
}

/// Sets the timer and all idle printers to work again; goes on behind any
/// other exception.
fn general() -> Vec<u32> {
    let mut interrupt = vec![
        lui(27, DEVICES),
        lw(26, CLOCK_LOW, 27),
        andi(26, 26, 0x3FF),
        addiu(26, 26, 300),
        sw(26, TIMER, 27),
    ];
    for number in 0..8 {
        interrupt.push(sw(8, PRINTERS + 16 * number + 8, 27));
    }
    interrupt.extend([lw(26, CLOCK_LOW, 27), srl(26, 26, 4), andi(26, 26, 2)]);
    for number in 0..8 {
        interrupt.push(sw(26, PRINTERS + 16 * number + 4, 27));
    }
    interrupt.extend([mfc0(26, EPC), jr(26), RFE]);
    let behind = [mfc0(26, EPC), addiu(26, 26, 4), jr(26), RFE];
    let mut words = vec![mfc0(26, CAUSE), andi(26, 26, 0x7C), beq(26, 0, 5), NOP];
    words.extend(behind);
    words.extend(interrupt);
    words
}

pub fn execution_rom() -> Vec<u8> {
    let mut words = refill();
    words.resize(0x80 / 4, NOP);
    words.extend(general());
    bytes(words)
}

/// Skips `then` unless these bits of the random number are all 0.
fn seldom(bits: u32, then: &[u32]) -> Vec<u32> {
    let mut words = vec![andi(10, 8, bits), bne(10, 0, then.len() as u32 + 1), NOP];
    words.extend(then);
    words
}

/// The user program, for the start of RAM.
pub fn user_program() -> Vec<u8> {
    // $8 is a random number, $9 an aligned place in one of sixteen pages.
    let mut words = vec![
        special(0x19, 8, 16, 0),
        special(0x12, 0, 0, 8),
        addu(8, 8, 17),
        srl(9, 8, 9),
        andi(9, 9, 0xFFFC),
        addu(9, 9, 19),
        lw(11, 0, 9),
        addu(11, 11, 8),
        sw(11, 0, 9),
        immediate(0x28, 9, 8, 5),
        immediate(0x29, 9, 11, 10),
        immediate(0x2A, 9, 11, 18),
        immediate(0x2E, 9, 8, 21),
        immediate(0x22, 9, 12, 6),
        immediate(0x26, 9, 12, 3),
        special(0x1A, 11, 8, 0),
        special(0x10, 0, 0, 13),
        special(0x18, 13, 12, 0),
        special(0x12, 0, 0, 14),
    ];
    let no_memory = immediate(0x23, 15, 14, 0);
    words.extend(seldom(0x00F0, &[SYSCALL]));
    words.extend(seldom(0x01F0, &[BREAK]));
    words.extend(seldom(0x03E0, &[special(0x20, 18, 18, 13)]));
    words.extend(seldom(0x07C0, &[lw(13, 2, 9)]));
    words.extend(seldom(0x0F80, &[sw(13, 0, 0)]));
    words.extend(seldom(0x1F00, &[mfc0(13, EPC)]));
    words.extend(seldom(0x3E00, &[0x4400_0000]));
    words.extend(seldom(0x7C00, &[0xFC00_0000]));
    words.extend(seldom(0xF800, &[lui(15, 0x8002), no_memory]));
    words.extend([j(PAGE), NOP, j(PAGE), addiu(20, 20, 1), j(PAGE), NOP]);
    bytes(words)
}
