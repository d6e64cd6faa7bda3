//! Random programs that store few values to few words of several frames, again
//! and again, so that many stores leave their word as it was.

use crate::asm::*;
use crate::dice::Dice;
use crate::entry::FRAME;

pub const RAM: u32 = 0x2000_0000;
const START: u32 = 0x1FC0_0000;
const PRINTERS: u32 = 0x1000_01D0;

/// Holds the address of RAM, of its last frame, of the printers.
const BASE: u32 = 16;
const LAST_BASE: u32 = 17;
const DEVICES: u32 = 18;
/// Counts the turns of a wait.
const WAITS: u32 = 19;

/// Offsets in RAM, two of them in the first three frames each.
const FIRST: [u32; 6] = [0, 0x804, 0x1000, 0x1FFC, 0x2000, 0x2800];
/// Offsets in its last frame.
const LAST: [u32; 2] = [0, 0xFFC];

const SB: u32 = 0x28;
const SH: u32 = 0x29;
const SW: u32 = 0x2B;
const STORES: [u32; 5] = [SB, SH, 0x2A, SW, 0x2E];

/// The places that the programs store to, from RAM's start; those beyond a small
/// RAM raise an exception.
pub fn places(frames: usize) -> Vec<u32> {
    let end = (frames * FRAME) as u32;
    let last = LAST.iter().map(|offset| end - FRAME as u32 + offset);
    FIRST.iter().copied().filter(|place| *place < end).chain(last).collect()
}

/// The values that are stored are those of these three.
fn register(dice: &mut Dice) -> u32 {
    dice.between(8, 10)
}

fn store(dice: &mut Dice, end: u32) -> u32 {
    let opcode = if dice.chance(2) { SW } else { dice.pick(&STORES) };
    let inside = match opcode {
        // An address error, now and then.
        SW => u32::from(dice.chance(40)),
        SH => 2 * dice.below(2),
        _ => dice.below(4),
    };
    // Behind a small RAM's end now and then.
    let place = dice.pick(&FIRST);
    let (base, place) = match dice.below(4) {
        0 => (LAST_BASE, dice.pick(&LAST)),
        _ if place < end || dice.chance(16) => (BASE, place),
        _ => (BASE, dice.pick(&FIRST[..2])),
    };
    immediate(opcode, base, register(dice), place + inside)
}

/// One more, so that a loop does not come to rest.
fn count(register: u32) -> u32 {
    addiu(register, register, 1)
}

fn instruction(dice: &mut Dice, end: u32) -> u32 {
    match dice.below(32) {
        0..=15 => store(dice, end),
        16 => addiu(register(dice), 0, dice.below(3)),
        17 => special(0x21, register(dice), register(dice), register(dice)),
        18..=23 => count(register(dice)),
        24 => lw(register(dice), dice.pick(&FIRST[..2]), BASE),
        25 => beq(register(dice), register(dice), dice.between(1, 3)),
        26 => immediate(0x0F, 0, register(dice), dice.below(2)),
        27 if dice.chance(2) => dice.pick(&[SYSCALL, BREAK, sw(8, 0, 0)]),
        28 => dice.pick(&[TLBWR, TLBWI, mtc0(8, ENTRY_HI)]),
        29 => sw(register(dice), 16 * dice.below(8) + dice.pick(&[4, 4, 8]), DEVICES),
        _ => NOP,
    }
}

fn put(rom: &mut [u8], place: usize, words: &[u32]) {
    for (word, bytes) in words.iter().zip(rom[place..].chunks_exact_mut(4)) {
        bytes.copy_from_slice(&word.to_le_bytes());
    }
}

fn load(register: u32, value: u32) -> [u32; 2] {
    [immediate(0x0F, 0, register, value >> 16), immediate(0x0D, register, register, value)]
}

/// Three steps a turn, so that the steps before it are far back on a long journal.
fn wait(turns: u32) -> [u32; 4] {
    [addiu(WAITS, 0, turns), addiu(WAITS, WAITS, u32::MAX), bne(WAITS, 0, u32::MAX - 1), NOP]
}

/// A loop; behind any exception it goes on with the next instruction.
pub fn rom(dice: &mut Dice, frames: usize, waits: bool) -> Vec<u8> {
    let mut rom = vec![0; 0x200];
    let last = RAM + (frames * FRAME - FRAME) as u32;
    let mut words = [load(BASE, RAM), load(LAST_BASE, last), load(DEVICES, PRINTERS)].concat();
    let first = START + 4 * words.len() as u32;
    let length = dice.between(2, 30);
    words.extend((0..length).map(|_| instruction(dice, (frames * FRAME) as u32)));
    if waits {
        words.extend(wait(dice.pick(&[100, 1_500, 6_000, 12_000, 18_000, 21_500])));
    }
    words.extend([j(first), NOP]);
    put(&mut rom, 0, &words);
    let handler = [mfc0(26, EPC), addiu(26, 26, 4), jr(26), RFE];
    put(&mut rom, 0x100, &handler);
    put(&mut rom, 0x180, &handler);
    rom
}
