//! Targets, links, the BCOND branches, and where an instruction leads.

use crate::exception::{Exception, RESERVED};
use crate::machine::Machine;
use crate::record::Recorder;
use crate::word::{rs, rt, signed_immediate};

const LINK_REGISTER: u32 = 31;

/// Where an executed instruction leads.
pub enum Way {
    /// It is no branch or jump.
    On,
    /// A branch that is not taken.
    NotTaken,
    /// A branch or jump to this address, behind its slot.
    To(u32),
}

impl Way {
    pub fn to_if(taken: bool, target: u32) -> Way {
        if taken {
            Way::To(target)
        } else {
            Way::NotTaken
        }
    }
}

/// Moves PC on. Behind a branch or jump, taken or not, comes its slot.
#[inline]
pub fn move_on(machine: &mut Machine, way: Way) {
    let following = machine.next_pc.wrapping_add(4);
    let (flag, address, next) = match way {
        Way::On => (0, 0, following),
        Way::NotTaken => (1, machine.pc, following),
        Way::To(target) => (1, machine.pc, target),
    };
    machine.slot_flag = flag;
    machine.branch_address = address;
    machine.pc = machine.next_pc;
    machine.next_pc = next;
}

/// Counted from the branch's own PC, also where the branch is in a slot.
pub fn branch_target(pc: u32, word: u32) -> u32 {
    pc.wrapping_add(4).wrapping_add(signed_immediate(word) << 2)
}

pub fn jump_target(pc: u32, word: u32) -> u32 {
    pc.wrapping_add(4) & 0xF000_0000 | word << 2 & 0x0FFF_FFFC
}

pub fn link(pc: u32) -> u32 {
    pc.wrapping_add(8)
}

pub fn jump_and_link<R: Recorder>(machine: &mut Machine, recorder: &mut R, word: u32) -> u32 {
    machine.set_register(recorder, LINK_REGISTER, link(machine.pc));
    jump_target(machine.pc, word)
}

/// BLTZ, BGEZ, BLTZAL and BGEZAL.
pub fn bcond<R: Recorder>(
    machine: &mut Machine,
    recorder: &mut R,
    word: u32,
) -> Result<Way, Exception> {
    let negative = (machine.register(rs(word)) as i32) < 0;
    let (taken, links) = match rt(word) {
        0 => (negative, false),
        1 => (!negative, false),
        16 => (negative, true),
        17 => (!negative, true),
        _ => return Err(Exception::plain(RESERVED)),
    };
    if links {
        machine.set_register(recorder, LINK_REGISTER, link(machine.pc));
    }
    Ok(Way::to_if(taken, branch_target(machine.pc, word)))
}
