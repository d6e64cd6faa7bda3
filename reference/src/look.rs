//! The step to come, looked at before anything moves. A run stops before a step
//! that meets two entries of the table that match (request L5).
//!
//! Parts 1 and 2 of a step move clocks, lines, printers, paper and words of disks.
//! The address of a load or store looks at none of these, and a fetch only at a
//! word that a disk reads into RAM, so that each entry of the table is looked for
//! once, here, and the step goes on with what was found.

use crate::address::{route, Access, Second, Stop};
use crate::disk;
use crate::exception::{Exception, INTERRUPT, IP_DISKS, IP_PRINTERS, IP_TIMER};
use crate::machine::Machine;
use crate::memory::Memory;
use crate::pages::Pages;
use crate::word::{opcode, rs, signed_immediate};

/// What is to be executed.
#[derive(Clone, Copy)]
pub struct Instruction {
    pub word: u32,
    /// Where a load or store leads; 0 for all other words.
    pub place: u32,
}

/// Whether a run stops before the step to come.
pub fn step_meets_two(machine: &Machine, memory: &Memory) -> bool {
    let coming = look(machine, memory, &mut Pages::none(), Second::Stops);
    matches!(coming, Err(Stop::TwoMatches))
}

/// The instruction, or what comes in its place.
#[inline]
pub fn look(
    machine: &Machine,
    memory: &Memory,
    pages: &mut Pages,
    second: Second,
) -> Result<Instruction, Stop> {
    if interrupts(machine) {
        return Err(Exception::plain(INTERRUPT).into());
    }
    let place = route(machine, pages, machine.pc, 4, Access::Fetch, second)?;
    let word = fetched(machine, memory, place).ok_or(Access::Fetch.bus_error())?;
    let place = load_or_store(machine, pages, word, second)?;
    Ok(Instruction { word, place })
}

/// The word as part 2 of the step will leave it.
#[inline]
fn fetched(machine: &Machine, memory: &Memory, place: u32) -> Option<u32> {
    if machine.disks_busy != 0 {
        if let Some(word) = disk::word_to_come(machine, memory.disks_lent_on(), place) {
            return Some(word);
        }
    }
    memory.word(place)
}

/// Part 3, with the lines as parts 1 and 2 of the step will leave them.
#[inline]
fn interrupts(machine: &Machine) -> bool {
    let status = machine.status;
    status.interrupts_enabled() && ticked_cause(machine) & status.interrupt_mask() != 0
}

fn ticked_cause(machine: &Machine) -> u32 {
    let timer = if machine.timer == 0 { IP_TIMER } else { 0 };
    let finishes =
        machine.busy != 0 && machine.printers.iter().any(|printer| printer.ticks_left == 1);
    let disk_finishes = machine.disks_busy != 0 && machine.disks.iter().any(disk::finishes);
    machine.cause
        | timer
        | if finishes { IP_PRINTERS } else { 0 }
        | if disk_finishes { IP_DISKS } else { 0 }
}

/// How a load (0x20 and on) or store (0x28 and on) has to be aligned; 0 for words
/// that are neither. LWL, LWR, SWL and SWR may lie anywhere.
const ALIGNMENT: [u32; 16] = [1, 2, 1, 4, 1, 2, 1, 0, 1, 2, 1, 4, 0, 0, 1, 0];

/// Where the load or store of a word leads; 0 where it makes none.
#[inline]
fn load_or_store(
    machine: &Machine,
    pages: &mut Pages,
    word: u32,
    second: Second,
) -> Result<u32, Stop> {
    let bytes = match opcode(word) {
        opcode @ 0x20..=0x2F => ALIGNMENT[opcode as usize - 0x20],
        _ => 0,
    };
    if bytes == 0 {
        return Ok(0);
    }
    let access = if opcode(word) < 0x28 { Access::Load } else { Access::Store };
    let address = machine.register(rs(word)).wrapping_add(signed_immediate(word));
    route(machine, pages, address, bytes, access, second)
}
