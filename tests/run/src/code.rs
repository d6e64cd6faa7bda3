//! The code that a run starts in.

use crate::aims::{anything, in_bootstrap, in_execution, PAGES};
use crate::call::Call;
use crate::dice::Dice;
use crate::lengths::Lengths;
use crate::look::{translation, user_mode, BOOTSTRAP, RAM};
use crate::table;
use crate::words::code;
use reference::Machine;

/// Most runs end within these; behind them are words from the pool.
const FRESH_WORDS: usize = 40;

const J: u32 = 0x0800_0000;
const JAL: u32 = 0x0C00_0000;
/// Of register 0: always taken.
const BGEZAL: u32 = 0x0411_0000;

/// The last page of each 256 MB that J and JAL stay in.
const LAST_PAGE: u32 = 0x0FFF_F000;

/// As far as the buffer reaches.
pub fn put(bytes: &mut [u8], place: u32, words: &[u32]) {
    let from = bytes.get_mut(place as usize..).unwrap_or_default();
    for (four, word) in from.chunks_exact_mut(4).zip(words) {
        four.copy_from_slice(&word.to_le_bytes());
    }
}

/// Sets PC to where fresh code is, mapped if translation is on.
pub fn start(dice: &mut Dice, machine: &mut Machine, lengths: &Lengths, call: &mut Call) {
    let fresh = code(dice, FRESH_WORDS);
    let kernel = !user_mode(machine);
    machine.pc = match dice.below(16) {
        0 => anything(dice, lengths),
        1 | 2 if kernel => in_execution(dice, lengths),
        3 | 4 if kernel => in_bootstrap(dice, lengths),
        _ => {
            let place = place_in_ram(dice, lengths);
            put(&mut call.ram, place, &fresh);
            let pc = from_ram(dice, machine, place);
            end_of_region(dice, call, place, pc)
        }
    };
    if machine.pc < RAM {
        put(&mut call.execution, machine.pc, &fresh);
        put(&mut call.bootstrap, machine.pc.saturating_sub(BOOTSTRAP), &fresh);
    }
    machine.next_pc = match dice.below(16) {
        0 => anything(dice, lengths),
        1 | 2 => machine.pc.wrapping_add(4 * dice.below(32)),
        _ => machine.pc.wrapping_add(4),
    };
}

/// Now and then at the end of a frame, which is the end of RAM in the last one.
fn place_in_ram(dice: &mut Dice, lengths: &Lengths) -> u32 {
    let frame = 0x1000 * dice.below(lengths.ram / 0x1000);
    let within = match dice.below(8) {
        0 => 0x1000 - 4 * dice.between(1, 6),
        1 => dice.below(0x400) * 4,
        _ => dice.below(0x100) * 4,
    };
    frame + within
}

/// In the last page of a region the last word is a jump or a branch, now and
/// then: its target and its link are counted from the next one.
fn end_of_region(dice: &mut Dice, call: &mut Call, place: u32, pc: u32) -> u32 {
    if pc & LAST_PAGE != LAST_PAGE || dice.chance(2) {
        return pc;
    }
    let jump = dice.pick(&[J, JAL, BGEZAL]) | dice.below(0x200);
    put(&mut call.ram, place | 0xFFC, &[jump]);
    pc | 0xFFC
}

fn from_ram(dice: &mut Dice, machine: &mut Machine, place: u32) -> u32 {
    if !translation(machine) {
        return RAM + place;
    }
    // User mode sees the upper half only.
    let pages = if user_mode(machine) { &PAGES[2..7] } else { &PAGES[..] };
    let page = dice.pick(pages);
    table::map(dice, machine, page, (RAM + place) & 0xFFFF_F000);
    page | place & 0xFFF
}
