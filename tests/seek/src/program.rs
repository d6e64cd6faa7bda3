//! Random programs that store few values to few words, again and again.

use crate::asm::*;
use crate::dice::Dice;

/// Offsets in RAM: the first words, two in the middle and the last one.
pub const PLACES: [u32; 7] = [0, 4, 8, 12, 0x800, 0x804, 0xFFC];

pub const START: u32 = 0x1FC0_0000;

/// Holds the address of RAM.
const BASE: u32 = 16;

const STORES: [u32; 5] = [SB, SH, SWL, SW, SWR];
const SB: u32 = 0x28;
const SH: u32 = 0x29;
const SWL: u32 = 0x2A;
const SW: u32 = 0x2B;
const SWR: u32 = 0x2E;

/// The values that are stored are those of these four.
fn register(dice: &mut Dice) -> u32 {
    dice.between(8, 11)
}

fn store(dice: &mut Dice) -> u32 {
    let opcode = if dice.chance(2) { SW } else { dice.pick(&STORES) };
    let inside = match opcode {
        // An address error, now and then.
        SW => u32::from(dice.chance(40)),
        SH => 2 * dice.below(2),
        _ => dice.below(4),
    };
    immediate(opcode, BASE, register(dice), dice.pick(&PLACES) + inside)
}

/// One more, so that a loop does not come to rest.
fn count(register: u32) -> u32 {
    addiu(register, register, 1)
}

fn instruction(dice: &mut Dice) -> u32 {
    match dice.below(20) {
        0..=9 => store(dice),
        10 | 11 => addiu(register(dice), 0, dice.below(3)),
        12 => special(0x21, register(dice), register(dice), register(dice)),
        13 | 14 => count(register(dice)),
        15 => lw(register(dice), dice.pick(&PLACES), BASE),
        16 => beq(register(dice), register(dice), dice.between(1, 3)),
        17 => immediate(0x0F, 0, register(dice), dice.below(2)),
        18 if dice.chance(3) => dice.pick(&[SYSCALL, BREAK, sw(8, 0, 0)]),
        _ => NOP,
    }
}

fn put(rom: &mut [u8], place: usize, words: &[u32]) {
    for (word, bytes) in words.iter().zip(rom[place..].chunks_exact_mut(4)) {
        bytes.copy_from_slice(&word.to_le_bytes());
    }
}

/// A loop; behind any exception it goes on with the next instruction.
pub fn rom(dice: &mut Dice) -> Vec<u8> {
    let mut rom = vec![0; 0x200];
    let mut words = vec![immediate(0x0F, 0, BASE, 0x2000)];
    let length = dice.between(3, 30);
    words.extend((0..length).map(|_| instruction(dice)));
    words.extend([j(START + 4), NOP]);
    put(&mut rom, 0, &words);
    let handler = [mfc0(26, EPC), addiu(26, 26, 4), jr(26), RFE];
    put(&mut rom, 0x100, &handler);
    put(&mut rom, 0x180, &handler);
    rom
}
