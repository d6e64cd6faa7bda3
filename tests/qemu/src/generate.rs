//! Random cases for a given instruction.

use crate::case::{
    block_at, code_at, Case, State, BATCH, BLOCK_WORDS, BREAK, CODE_AT, CODE_WORDS, FREE_FROM,
    MAIN_WORD,
};
use crate::dice::Dice;
use crate::instructions::{Form, INSTRUCTIONS};

fn special(function: u32, rs: u32, rt: u32, rd: u32, shift: u32) -> u32 {
    rs << 21 | rt << 16 | rd << 11 | shift << 6 | function
}

fn immediate(opcode: u32, rs: u32, rt: u32, value: u32) -> u32 {
    opcode << 26 | rs << 21 | rt << 16 | value & 0xFFFF
}

pub fn case(dice: &mut Dice, slot: usize, instruction: usize) -> Case {
    let main_at = code_at(slot) + MAIN_WORD * 4;
    let mut before = State {
        registers: [0; 32],
        hi: dice.value(),
        lo: dice.value(),
        pc: main_at,
        signal: 0,
        block: [0; BLOCK_WORDS],
    };
    before.registers[1..].fill_with(|| dice.value());
    before.block.fill_with(|| dice.word());
    let (main, result) = main_word(dice, slot, &mut before.registers, INSTRUCTIONS[instruction].1);
    let mut code = [BREAK; CODE_WORDS];
    code[MAIN_WORD as usize] = main;
    code[MAIN_WORD as usize + 1] = following(dice, result);
    Case { instruction, before, code }
}

/// The word behind: a slot with an effect, or the first to see the result.
/// It never traps, since a trap in a slot is told differently by each side.
fn following(dice: &mut Dice, result: u32) -> u32 {
    if dice.chance(8) {
        let move_from = dice.pick(&[16, 18]);
        return special(move_from, 0, 0, dice.below(32), 0);
    }
    let function = dice.pick(&[33, 35, 36, 37, 38, 39, 42, 43]);
    let (rs, rt) = if dice.chance(2) { (result, dice.below(32)) } else { (dice.below(32), result) };
    special(function, rs, rt, dice.below(32), 0)
}

/// A place in the batch's code where a BREAK lies, and not this case's own
/// main word or slot.
fn landing(dice: &mut Dice, slot: usize) -> u32 {
    let near = dice.chance(2);
    let other = if near { slot } else { dice.below(BATCH as u32) as usize };
    let free = MAIN_WORD + CODE_WORDS as u32 - FREE_FROM;
    let word = dice.below(free);
    let word = if word < MAIN_WORD { word } else { word - MAIN_WORD + FREE_FROM };
    code_at(other) + word * 4
}

/// The instruction word, after the registers it needs are set, and the
/// register in which its result is seen.
fn main_word(dice: &mut Dice, slot: usize, registers: &mut [u32; 32], form: Form) -> (u32, u32) {
    let (rs, mut rt, rd) = (dice.below(32), dice.below(32), dice.below(32));
    match form {
        Form::Special(function) => {
            // Fields that an instruction does not use must be 0 for qemu.
            let (shift, rs, rt, rd) = match function {
                0..=3 => (dice.below(32), 0, rt, rd),
                16 | 18 => (0, 0, 0, rd),
                17 | 19 => (0, rs, 0, 0),
                24 | 25 => (0, rs, rt, 0),
                _ => (0, rs, rt, rd),
            };
            match dice.below(4) {
                0 => set(registers, rt, registers[rs as usize]),
                1 => overflow_near(dice, registers, rs, rt),
                _ => {}
            }
            (special(function, rs, rt, rd, shift), rd)
        }
        Form::Divide(function) => {
            rt = 1 + dice.below(31);
            while registers[rt as usize] == 0 {
                registers[rt as usize] = dice.value();
            }
            (special(function, rs, rt, 0, 0), rd)
        }
        Form::Immediate(opcode) => {
            let rs = if opcode == 15 { 0 } else { rs };
            if dice.chance(4) {
                overflow_near(dice, registers, rs, rs);
            }
            let value = immediate_value(dice, registers[rs as usize]);
            (immediate(opcode, rs, rt, value), rt)
        }
        Form::Memory(opcode, bytes) => (memory(dice, slot, registers, opcode, bytes, rt), rt),
        Form::Compare(opcode) => {
            let rt = if opcode >= 6 { 0 } else { rt };
            if opcode < 6 && dice.chance(2) {
                set(registers, rt, registers[rs as usize]);
            }
            (immediate(opcode, rs, rt, offset(dice, slot)), rs)
        }
        Form::Bcond(which) => {
            let rs = if dice.chance(4) { 31 } else { rs };
            (immediate(1, rs, which, offset(dice, slot)), 31)
        }
        Form::Jump(opcode) => {
            let target = landing(dice, slot);
            (opcode << 26 | target >> 2 & 0x03FF_FFFF, 31)
        }
        Form::JumpRegister | Form::JumpRegisterLink => {
            let rs = 1 + dice.below(31);
            set(registers, rs, landing(dice, slot));
            if form == Form::JumpRegister {
                return (special(8, rs, 0, 0, 0), rs);
            }
            let rd = if dice.chance(4) { rs } else { rd };
            (special(9, rs, 0, rd, 0), rd)
        }
    }
}

fn set(registers: &mut [u32; 32], number: u32, value: u32) {
    if number != 0 {
        registers[number as usize] = value;
    }
}

/// Two large values, of which a sum or a difference may just overflow.
fn overflow_near(dice: &mut Dice, registers: &mut [u32; 32], rs: u32, rt: u32) {
    let edge = dice.pick(&[0x7FFF_FFFF, 0x8000_0000, 0x4000_0000, 0xC000_0000]);
    set(registers, rs, edge.wrapping_add(dice.below(8)).wrapping_sub(4));
    set(registers, rt, edge.wrapping_add(dice.below(0x1_0000)).wrapping_sub(0x8000));
}

/// Now and then equal to the register's low half, or one more.
fn immediate_value(dice: &mut Dice, beside: u32) -> u32 {
    match dice.below(5) {
        0 => dice.pick(&[0, 1, 0x7FFF, 0x8000, 0xFFFF]),
        1 => beside,
        2 => beside.wrapping_add(1),
        _ => dice.word(),
    }
}

fn offset(dice: &mut Dice, slot: usize) -> u32 {
    let main = (code_at(slot) - CODE_AT) / 4 + MAIN_WORD;
    loop {
        let target = (landing(dice, slot) - CODE_AT) / 4;
        let words = target as i32 - (main as i32 + 1);
        if i16::try_from(words).is_ok() {
            return words as u32;
        }
    }
}

/// One access in eight is left unaligned, which both sides refuse.
fn memory(
    dice: &mut Dice,
    slot: usize,
    registers: &mut [u32; 32],
    opcode: u32,
    bytes: u32,
    rt: u32,
) -> u32 {
    let rs = 1 + dice.below(31);
    let mut place = dice.below(BLOCK_WORDS as u32 * 4);
    if !dice.chance(8) {
        place -= place % bytes;
    }
    let offset = dice.word() as i16 as u32;
    set(registers, rs, (block_at(slot) + place).wrapping_sub(offset));
    immediate(opcode, rs, rt, offset)
}
