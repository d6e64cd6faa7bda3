//! The instructions of coprocessor 0.

use crate::exception::{Exception, IP_SOFTWARE, RESERVED};
use crate::machine::{Entry, Machine};
use crate::record::Recorder;
use crate::status::{self, Status};
use crate::tlb::search;
use crate::word::{function, rd, rs, rt};

pub const ENTRY_HI_MASK: u32 = 0xFFFF_FFC0;
pub const ENTRY_LO_MASK: u32 = 0xFFFF_FF00;

const INDEX_FIELD: u32 = 0x3F00;
const NOT_FOUND: u32 = 0x8000_0000;

/// Any word of opcode 0x10. Usability comes before every other test, so that
/// user mode meets code 11 for undefined words too.
pub fn cop0<R: Recorder>(
    machine: &mut Machine,
    recorder: &mut R,
    word: u32,
) -> Result<(), Exception> {
    if !machine.status.cp0_usable() {
        return Err(Exception::unusable(0));
    }
    match rs(word) {
        0 => {
            let value = read(machine, rd(word))?;
            machine.set_register(recorder, rt(word), value);
            Ok(())
        }
        4 => write(machine, rd(word), machine.register(rt(word))),
        16..=31 => operate(machine, recorder, function(word)),
        _ => Err(Exception::plain(RESERVED)),
    }
}

fn read(machine: &Machine, number: u32) -> Result<u32, Exception> {
    match number {
        0 => Ok(machine.index),
        1 => Ok(machine.random),
        2 => Ok(machine.entry_lo),
        8 => Ok(machine.bad_vaddr),
        10 => Ok(machine.entry_hi),
        12 => Ok(machine.status.0),
        13 => Ok(machine.cause),
        14 => Ok(machine.epc),
        _ => Err(Exception::plain(RESERVED)),
    }
}

fn masked(old: u32, value: u32, mask: u32) -> u32 {
    old & !mask | value & mask
}

fn write(machine: &mut Machine, number: u32, value: u32) -> Result<(), Exception> {
    match number {
        0 => machine.index = masked(machine.index, value, INDEX_FIELD),
        2 => machine.entry_lo = value & ENTRY_LO_MASK,
        10 => machine.entry_hi = value & ENTRY_HI_MASK,
        12 => machine.status = Status(value & status::MASK),
        13 => machine.cause = masked(machine.cause, value, IP_SOFTWARE),
        1 | 8 | 14 => {}
        _ => return Err(Exception::plain(RESERVED)),
    }
    Ok(())
}

/// The table has sixteen entries and the field six bits.
fn entry_number(field: u32) -> usize {
    (field >> 8 & 15) as usize
}

fn set_entry<R: Recorder>(machine: &mut Machine, recorder: &mut R, number: usize, pair: Entry) {
    recorder.tlb_row(number, machine.tlb[number]);
    machine.tlb[number] = pair;
}

fn operate<R: Recorder>(
    machine: &mut Machine,
    recorder: &mut R,
    function: u32,
) -> Result<(), Exception> {
    let pair = Entry { high: machine.entry_hi, low: machine.entry_lo };
    match function {
        1 => {
            let entry = machine.tlb[entry_number(machine.index)];
            machine.entry_hi = entry.high;
            machine.entry_lo = entry.low;
        }
        2 => set_entry(machine, recorder, entry_number(machine.index), pair),
        6 => set_entry(machine, recorder, entry_number(machine.random), pair),
        8 => {
            let found = search(&machine.tlb, pair.high, pair.high);
            machine.index = found.map_or(NOT_FOUND, |found| (found.number as u32) << 8);
        }
        16 => machine.status = machine.status.popped(),
        _ => return Err(Exception::plain(RESERVED)),
    }
    Ok(())
}
