//! How a scene comes to its access: by the steps before it, which may make the
//! second match, turn translation on, or raise an exception.

use crate::asm::*;
use crate::dice::Dice;
use crate::look::{ASID, PAGE};
use crate::table::{asid, matching};
use crate::words::{harmless, TARGET, VALUE};
use reference::{Machine, Status};

const VM: u32 = 1 << 24;
const VM_PREVIOUS: u32 = 1 << 25;
const KU: u32 = 1 << 1;
const KU_PREVIOUS: u32 = 1 << 3;
const IE: u32 = 1;
const IE_PREVIOUS: u32 = 1 << 2;

/// The words of the way, and the steps that it takes.
pub struct Way {
    pub words: Vec<u32>,
    pub steps: u32,
}

/// One of these is the last thing before the access.
const LAST: [fn(&mut Dice, &mut Machine, u32) -> Way; 9] = [
    nothing,
    nothing,
    exception,
    write_entry,
    write_random,
    change_space,
    turn_on,
    come_back,
    software_line,
];

fn of(words: &[u32]) -> Way {
    Way { words: words.to_vec(), steps: words.len() as u32 }
}

fn nothing(_: &mut Dice, _: &mut Machine, _: u32) -> Way {
    of(&[])
}

/// The handler goes on with the word behind it.
fn exception(dice: &mut Dice, _: &mut Machine, _: u32) -> Way {
    let word = dice.pick(&[SYSCALL, BREAK, 0xFC00_0000, 0x4400_0000]);
    Way { words: vec![word], steps: 5 }
}

fn one_more(dice: &mut Dice, machine: &mut Machine, page: u32) {
    let space = machine.entry_hi & ASID;
    let low = 0x2000_0000 | dice.below(4) << 9;
    let entry = matching(dice, page, space, low);
    machine.entry_hi = entry.high & PAGE | space;
    machine.entry_lo = entry.low;
}

fn write_entry(dice: &mut Dice, machine: &mut Machine, page: u32) -> Way {
    one_more(dice, machine, page);
    machine.index = dice.below(64) << 8;
    of(&[TLBWI])
}

fn write_random(dice: &mut Dice, machine: &mut Machine, page: u32) -> Way {
    one_more(dice, machine, page);
    of(&[TLBWR])
}

/// From an address space in which fewer entries match.
fn change_space(dice: &mut Dice, machine: &mut Machine, _: u32) -> Way {
    machine.registers[VALUE as usize] = machine.entry_hi;
    machine.entry_hi = machine.entry_hi & PAGE | asid(dice);
    of(&[mtc0(VALUE, ENTRY_HI)])
}

/// The code is fetched before and behind it, where its page is RAM's own.
fn turn_on(_: &mut Dice, machine: &mut Machine, _: u32) -> Way {
    let status = machine.status.0;
    machine.registers[VALUE as usize] = status;
    machine.status = Status(status & !(VM | KU | IE));
    of(&[mtc0(VALUE, STATUS)])
}

fn come_back(_: &mut Dice, machine: &mut Machine, _: u32) -> Way {
    let status = machine.status.0;
    let previous = |now: u32, then: u32| if status & now != 0 { then } else { 0 };
    machine.status = Status(
        status & !(VM | KU | IE | VM_PREVIOUS | KU_PREVIOUS | IE_PREVIOUS)
            | previous(VM, VM_PREVIOUS)
            | previous(KU, KU_PREVIOUS)
            | previous(IE, IE_PREVIOUS),
    );
    of(&[RFE])
}

fn software_line(dice: &mut Dice, machine: &mut Machine, _: u32) -> Way {
    machine.registers[VALUE as usize] = dice.pick(&[0x100, 0x200, 0x300]);
    of(&[mtc0(VALUE, CAUSE)])
}

/// A few harmless steps and one of the above, then a branch or a jump.
pub fn to_access(dice: &mut Dice, machine: &mut Machine, page: u32, jumps: bool) -> Way {
    let lead: Vec<u32> = (0..dice.below(4)).map(|_| harmless(dice)).collect();
    let mut way = of(&lead);
    let last = if dice.chance(3) { nothing } else { dice.pick(&LAST) };
    let Way { words, steps } = last(dice, machine, page);
    way.words.extend(words);
    way.steps += steps;
    if jumps {
        way.words.extend([jr(TARGET), NOP]);
        way.steps += 2;
    } else if dice.chance(8) {
        way.words.push(beq(0, 0, dice.between(1, 3)));
        way.steps += 1;
    }
    way
}
