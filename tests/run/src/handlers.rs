//! What lies at the vectors: code that lets a run go on behind an exception.

use crate::call::Call;
use crate::code::put;
use crate::dice::Dice;
use crate::plan::{FIRST_NUMBER, LAST_EXTREME};

const EPC_TO_26: u32 = 0x401A_7000;
const SKIP_26: u32 = 0x275A_0004;
const JUMP_26: u32 = 0x0340_0008;
const SKIP_12: u32 = 0x258C_0008;
const JUMP_12: u32 = 0x0180_0008;
const RFE: u32 = 0x4200_0010;
const ENTRY_LO_FROM_27: u32 = 0x409B_1000;
const TLBWR: u32 = 0x4200_0006;
const NO_SOFTWARE_LINES: u32 = 0x4080_6800;
const DEVICES_TO_26: u32 = 0x3C1A_1000;
const STORE_AT_26: u32 = 0xAF40_0000;

/// Goes on behind the instruction that raised the exception.
const RESUME: [u32; 4] = [EPC_TO_26, SKIP_26, JUMP_26, RFE];

/// Goes on in the code, also where the exception was a fetch from nowhere.
const ELSEWHERE: [u32; 3] = [SKIP_12, JUMP_12, RFE];

/// Maps the page that was missing and tries again.
const REFILL: [u32; 5] = [ENTRY_LO_FROM_27, TLBWR, EPC_TO_26, JUMP_26, RFE];

/// Turns lines off, else an interrupt would come back at once: the software
/// lines, the timer's, and with luck that of the printers.
fn quieting(dice: &mut Dice) -> Vec<u32> {
    let mut words = vec![NO_SOFTWARE_LINES, DEVICES_TO_26];
    let mut store = |dice: &mut Dice, offset| {
        let from = dice.between(FIRST_NUMBER, LAST_EXTREME);
        words.push(STORE_AT_26 | from << 16 | offset);
    };
    store(dice, 0x20);
    for _ in 0..dice.below(4) {
        let printer = 0x1D0 + 16 * dice.below(8);
        let field = dice.pick(&[4, 4, 4, 8]);
        store(dice, printer + field);
    }
    words.extend_from_slice(&ELSEWHERE);
    words
}

pub fn put_handlers(dice: &mut Dice, call: &mut Call) {
    for (rom, base) in [(&mut call.execution, 0), (&mut call.bootstrap, 0x100)] {
        match dice.below(8) {
            0 => {}
            1 => put(rom, base + 0x80, &RESUME),
            2..=5 => put(rom, base + 0x80, &quieting(dice)),
            _ => put(rom, base + 0x80, &ELSEWHERE),
        }
        match dice.below(8) {
            0 => {}
            1 => put(rom, base, &RESUME),
            2..=4 => put(rom, base, &ELSEWHERE),
            _ => put(rom, base, &REFILL),
        }
    }
}
