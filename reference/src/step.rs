//! One step, in the order of document 01.

use crate::address::{Second, Stop};
use crate::clock;
use crate::disk;
use crate::exception::{enter, Exception};
use crate::execute::execute;
use crate::look::{look, Instruction};
use crate::machine::Machine;
use crate::memory::Memory;
use crate::pages::Pages;
use crate::printer;
use crate::record::Recorder;

/// Takes one step, whatever the table holds, and tells whether it entered an
/// exception.
pub fn step<R: Recorder>(machine: &mut Machine, memory: &mut Memory, recorder: &mut R) -> bool {
    let coming = match look(machine, memory, &mut Pages::none(), Second::IsPassedBy) {
        Ok(instruction) => Ok(instruction),
        Err(Stop::Raised(exception)) => Err(exception),
        Err(Stop::TwoMatches) => unreachable!("a second match is passed by"),
    };
    take(machine, memory, recorder, coming)
}

/// Takes the step that was seen to come: an instruction, or an exception.
#[inline]
pub fn take<R: Recorder>(
    machine: &mut Machine,
    memory: &mut Memory,
    recorder: &mut R,
    coming: Result<Instruction, Exception>,
) -> bool {
    clock::tick(machine);
    // One question for both: in most steps no device is at work.
    if machine.disks_busy | machine.busy != 0 {
        if machine.disks_busy != 0 {
            disk::tick(machine, memory.lent_on());
        }
        printer::tick(machine, memory.paper, recorder);
    }
    let done = coming.and_then(|instruction| execute(machine, memory, recorder, instruction));
    match done {
        Ok(()) => false,
        Err(exception) => {
            enter(machine, exception);
            true
        }
    }
}
