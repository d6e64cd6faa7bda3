//! Each step of a run, looked at, with what request L2 says of it: written from
//! its readings, so that the reference is judged too.

use crate::call::Call;
use crate::look::{look, Access, Look};
use crate::words::branch_kind;
use reference::{decode, step, Answer, Machine, Memory, NoRecord, TWO_MATCHES};

const MISS_VECTORS: [u32; 2] = [0, 0x1FC0_0100];

pub struct Sight<'a> {
    pub before: &'a Machine,
    pub after: &'a Machine,
    pub look: &'a Look,
    /// ExcCode, where the step entered an exception.
    pub code: Option<u32>,
    /// Steps of the run before this one.
    pub steps: u64,
}

impl Sight<'_> {
    pub fn in_slot(&self) -> bool {
        self.before.slot_flag == 1
    }

    pub fn enters_in_slot(&self, code: u32) -> bool {
        self.in_slot() && self.code == Some(code)
    }

    /// The exception is the fetch's.
    pub fn by_fetch(&self) -> bool {
        self.look.word.is_none() && !self.look.interrupt
    }

    pub fn missed(&self) -> bool {
        MISS_VECTORS.contains(&self.after.pc)
    }

    /// The branch or jump that was executed.
    pub fn branch(&self) -> Option<usize> {
        self.executed().and_then(branch_kind)
    }

    pub fn executed(&self) -> Option<u32> {
        self.look.word.filter(|_| self.code.is_none())
    }

    /// By where it leads: a branch that leads just behind its slot counts as not
    /// taken.
    pub fn taken(&self) -> bool {
        self.after.next_pc != self.before.next_pc.wrapping_add(4)
    }
}

pub fn slot(machine: &Machine) -> (u32, u32) {
    (machine.slot_flag, machine.branch_address)
}

pub fn bd(machine: &Machine) -> u32 {
    machine.cause >> 31
}

/// What is wrong with a step, or None.
fn wrong(sight: &Sight) -> Option<String> {
    let (before, after) = (sight.before, sight.after);
    let due = match sight.branch() {
        Some(_) => (1, before.pc),
        None => (0, 0),
    };
    if slot(after) != due {
        return Some(format!("slot flag and branch address {:x?}, not {due:x?}", slot(after)));
    }
    let back = if sight.in_slot() { before.branch_address } else { before.pc };
    let due = (back, before.slot_flag);
    if sight.code.is_some() && (after.epc, bd(after)) != due {
        return Some(format!("EPC and BD {:x?}, not {due:x?}", (after.epc, bd(after))));
    }
    None
}

/// Shows every step of a run, and answers the access that it stopped before.
pub fn watch(
    call: &Call,
    answer: Answer,
    mut show: impl FnMut(&Sight),
) -> Result<Option<(Machine, Access)>, Vec<String>> {
    let mut machine = decode(&call.image);
    let (mut ram, mut paper) = (call.ram.clone(), call.paper.clone());
    let mut memory = Memory {
        execution_rom: &call.execution,
        bootstrap_rom: &call.bootstrap,
        ram: &mut ram,
        paper: &mut paper,
        disks: reference::no_disks(),
    };
    for steps in 0..u64::from(answer.steps) {
        let before = machine.clone();
        let look = look(&before, &memory);
        let entered = step(&mut machine, &mut memory, &mut NoRecord);
        let code = if entered { Some(machine.cause >> 2 & 31) } else { None };
        let sight = Sight { before: &before, after: &machine, look: &look, code, steps };
        if let Some(what) = wrong(&sight) {
            return Err(vec![format!("by the readings, step {steps} of the reference: {what}")]);
        }
        show(&sight);
    }
    let halt = look(&machine, &memory).halt().filter(|_| answer.reason == TWO_MATCHES);
    Ok(halt.map(|access| (machine, access)))
}
