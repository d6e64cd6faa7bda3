//! Programs for disks: commands, looks at registers, and loads and stores of the
//! words that transfers meet.

use crate::asm::*;
use crate::dice::Dice;

/// Registers with fixed meanings.
pub const DEVICES: u32 = 8;
pub const MEMORY: u32 = 9;
pub const DOUBLED: u32 = 5;
pub const FIRST_COMMAND: u32 = 10;
pub const COMMANDS: u32 = 12;

pub const fn disk_at(number: u32) -> u32 {
    0x50 + 0x10 * number
}

/// Where transfers and stores meet, from RAM's start. The first is code.
pub const MEETINGS: [u32; 6] = [0x40, 0x800, 0x804, 0xFFC, 0x1000, 0x1004];

const STORES: [u32; 5] = [0x28, 0x29, 0x2A, 0x2B, 0x2E];
const LOADS: [u32; 7] = [0x20, 0x21, 0x22, 0x23, 0x24, 0x25, 0x26];

/// Half of the loads and stores go where the disks meet.
fn place(dice: &mut Dice, opcode: u32, at: u32) -> u32 {
    let narrow = match opcode {
        0x23 | 0x2B => 0,
        0x21 | 0x25 | 0x29 => dice.pick(&[0, 2]),
        _ => dice.below(4),
    };
    let there = if dice.chance(2) { at } else { dice.pick(&MEETINGS) };
    there + 4 * dice.below(4) + narrow
}

pub fn instruction(dice: &mut Dice, at: u32) -> u32 {
    let register = dice.between(2, 7);
    let command = FIRST_COMMAND + dice.below(COMMANDS);
    match dice.below(32) {
        0..=5 => {
            let field = dice.pick(&[4, 4, 4, 8, 8, 0, 12]);
            sw(command, disk_at(dice.below(8)) + field, DEVICES)
        }
        6..=8 => lw(register, disk_at(dice.below(8)) + 4 * dice.below(4), DEVICES),
        9 => lw(register, dice.pick(&[0x28, 0x3C, 0x34, 0x48, 0x20]), DEVICES),
        10 => sw(command, 0x1D0 + 0x10 * dice.below(8) + dice.pick(&[4, 8]), DEVICES),
        11..=15 => {
            let opcode = dice.pick(&STORES);
            immediate(opcode, MEMORY, register, place(dice, opcode, at))
        }
        16..=19 => {
            let opcode = dice.pick(&LOADS);
            immediate(opcode, MEMORY, register, place(dice, opcode, at))
        }
        20 => addiu(register, register, dice.below(9)),
        21 => dice.pick(&[SYSCALL, BREAK, TLBWI, TLBR, TLBP]),
        22 => lw(register, 0, DOUBLED),
        23 => sw(register, 4, DOUBLED),
        24 => mtc0(register, dice.pick(&[CAUSE, INDEX])),
        25 => beq(0, 0, dice.below(4)),
        _ => NOP,
    }
}

/// The commands and addresses that the registers hold.
pub fn commands(dice: &mut Dice, ram: u32) -> [u32; COMMANDS as usize] {
    let head_and_sector = |dice: &mut Dice| dice.below(3) << 16 | dice.below(3) << 8;
    let upper = if dice.chance(4) { dice.word() & 0xFF00_0000 } else { 0 };
    let (read, write) = (3 | head_and_sector(dice), 4 | head_and_sector(dice));
    let edges = [0, 4, 0xFFC, ram - 0x1000, ram - 0xFFC, ram, 0x8000_0000, 2, 0x801, 0x1003];
    let address = 0x2000_0000u32;
    [
        upper,
        1 | upper,
        2 | upper | dice.below(3) << 8,
        2 | dice.pick(&[0x100, 0x1_0000, 0x1_0100, 0xFFFF_00]),
        3 | upper,
        4 | upper,
        read | upper,
        write,
        dice.pick(&[5, 6, 9, 0x80, 0xFF, 0x105]),
        address + 4 * dice.below(0x400),
        address.wrapping_add(dice.pick(&edges)),
        address.wrapping_add(dice.pick(&[0, 0x7F0, 0x800, 0xFF0])),
    ]
}

/// A loop from RAM's start, as long as its first `words` words.
pub fn program(dice: &mut Dice, words: usize, at: u32) -> Vec<u32> {
    let mut code: Vec<u32> = (0..words - 2).map(|_| instruction(dice, at)).collect();
    code.extend([j(0x2000_0000), NOP]);
    code
}

/// Acknowledges a disk and goes on behind or before what was interrupted.
pub fn handler(dice: &mut Dice) -> [u32; 6] {
    let on = dice.pick(&[0, 4, 4]);
    [
        sw(FIRST_COMMAND + 1, disk_at(dice.below(8)) + 4, DEVICES),
        mfc0(26, EPC),
        addiu(26, 26, on),
        lw(2, 0x3C, DEVICES),
        jr(26),
        RFE,
    ]
}
