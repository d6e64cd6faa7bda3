//! One instruction, chosen by its opcode.

use crate::alu::{add_or_overflow, special};
use crate::branch::{bcond, branch_target, jump_and_link, jump_target, move_on, Way};
use crate::cp0::cop0;
use crate::exception::{Exception, RESERVED};
use crate::load_store::{load, store};
use crate::look::Instruction;
use crate::machine::Machine;
use crate::memory::Memory;
use crate::record::Recorder;
use crate::word::{opcode, rs, rt, signed_immediate, unsigned_immediate, COP0};

/// Executes an instruction and moves PC on. An instruction that raises an exception
/// has changed nothing.
#[inline]
pub fn execute<R: Recorder>(
    machine: &mut Machine,
    memory: &mut Memory,
    recorder: &mut R,
    instruction: Instruction,
) -> Result<(), Exception> {
    let Instruction { word, place } = instruction;
    let way = match opcode(word) {
        0x00 => special(machine, recorder, word)?,
        0x01 => bcond(machine, recorder, word)?,
        0x02 => Way::To(jump_target(machine.pc, word)),
        0x03 => Way::To(jump_and_link(machine, recorder, word)),
        0x04..=0x07 => Way::to_if(compare(machine, word), branch_target(machine.pc, word)),
        0x08..=0x0F => {
            let result = immediate(machine, word)?;
            machine.set_register(recorder, rt(word), result);
            Way::On
        }
        COP0 => {
            cop0(machine, recorder, word)?;
            Way::On
        }
        // COP1 to 3, LWC1 to 3, SWC1 to 3: the low two bits are the number.
        0x11..=0x13 | 0x31..=0x33 | 0x39..=0x3B => {
            return Err(Exception::unusable(opcode(word) as u8 & 3));
        }
        0x20..=0x26 => {
            load(machine, memory, recorder, word, place)?;
            Way::On
        }
        0x28..=0x2E => {
            store(machine, memory, recorder, word, place)?;
            Way::On
        }
        _ => return Err(Exception::plain(RESERVED)),
    };
    move_on(machine, way);
    Ok(())
}

/// BEQ, BNE, BLEZ and BGTZ.
fn compare(machine: &Machine, word: u32) -> bool {
    let a = machine.register(rs(word));
    let b = machine.register(rt(word));
    match opcode(word) {
        0x04 => a == b,
        0x05 => a != b,
        0x06 => a as i32 <= 0,
        _ => a as i32 > 0,
    }
}

fn immediate(machine: &Machine, word: u32) -> Result<u32, Exception> {
    let a = machine.register(rs(word));
    let signed = signed_immediate(word);
    let unsigned = unsigned_immediate(word);
    Ok(match opcode(word) {
        0x08 => add_or_overflow(a, signed)?,
        0x09 => a.wrapping_add(signed),
        0x0A => u32::from((a as i32) < signed as i32),
        0x0B => u32::from(a < signed),
        0x0C => a & unsigned,
        0x0D => a | unsigned,
        0x0E => a ^ unsigned,
        _ => unsigned << 16,
    })
}
