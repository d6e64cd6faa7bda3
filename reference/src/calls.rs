//! Run, with its refusals.

use crate::address::{Second, Stop};
use crate::answer::{Answer, BUDGET_SPENT, EXCEPTION, TWO_MATCHES};
use crate::exception::Exception;
use crate::image::{decode, encode};
use crate::look::{look, Instruction};
use crate::machine::Machine;
use crate::memory::Memory;
use crate::pages::Pages;
use crate::record::{NoRecord, Recorder};
use crate::rules::keeps_rules;
use crate::sizes::{
    budget_fits, disks_fit, index_fits, journal_fits, paper_fits, ram_fits, record_slots, rom_fits,
    RECORD_BYTES,
};
use crate::step::take;
use crate::word::{opcode, COP0};

/// Run without records: on hand and next slot move, the journal's bytes stay. The
/// index follows from records, so that none is lent.
#[allow(clippy::too_many_arguments)]
pub fn run(
    image: &mut [u8],
    execution_rom: &[u8],
    bootstrap_rom: &[u8],
    ram: &mut [u8],
    paper: &mut [u8],
    journal: &mut [u8],
    disks: [&mut [u8]; 8],
    budget: u64,
    stop_at_exceptions: u64,
) -> Answer {
    let memory = Memory { execution_rom, bootstrap_rom, ram, paper, disks };
    run_recorded(image, memory, journal, budget, stop_at_exceptions, &mut NoRecord)
}

/// Run with any recorder, which is lent each step's slot behind the step.
pub fn run_recorded<R: Recorder>(
    image: &mut [u8],
    memory: Memory,
    journal: &mut [u8],
    budget: u64,
    stop_at_exceptions: u64,
    recorder: &mut R,
) -> Answer {
    let slots = record_slots(journal.len()) as u32;
    run_steps(
        image,
        memory,
        journal.len(),
        None,
        budget,
        stop_at_exceptions,
        |machine, memory, coming| {
            let start = machine.next_slot as usize * RECORD_BYTES;
            recorder.before_step(machine);
            let entered = take(machine, memory, recorder, *coming);
            move_on(machine, slots);
            recorder.after_step(machine, journal.get_mut(start..start + RECORD_BYTES));
            entered
        },
    )
}

/// The refusals and the loop of every run, row 10 where an index is lent.
/// `take_step` also moves the place in the journal on, and answers whether the
/// step entered an exception. What comes is lent to it and not given: behind a value
/// in its arguments the buffers' own addresses would go to memory with each step.
#[inline]
pub(crate) fn run_steps(
    image: &mut [u8],
    mut memory: Memory,
    journal_len: usize,
    index_len: Option<usize>,
    budget: u64,
    stop_at_exceptions: u64,
    mut take_step: impl FnMut(&mut Machine, &mut Memory, &Result<Instruction, Exception>) -> bool,
) -> Answer {
    let refusal = run_refusal(image, &memory, journal_len, index_len, budget);
    if refusal != 0 {
        return Answer::refused(refusal);
    }
    let mut machine = decode(image);
    let stops = stop_at_exceptions != 0;
    let budget = budget as u32;
    let mut pages = Pages::none();
    let mut steps = 0;
    let reason = loop {
        if steps == budget {
            break BUDGET_SPENT;
        }
        let Some(coming) = coming(&machine, &memory, &mut pages) else {
            break TWO_MATCHES;
        };
        let entered = take_step(&mut machine, &mut memory, &coming);
        steps += 1;
        if entered && stops {
            break EXCEPTION;
        }
    };
    encode(&machine, image);
    Answer::done(reason, steps)
}

/// The step to come, or None where the run stops before it.
#[inline]
fn coming(
    machine: &Machine,
    memory: &Memory,
    pages: &mut Pages,
) -> Option<Result<Instruction, Exception>> {
    match look(machine, memory, pages, Second::Stops) {
        Ok(instruction) => {
            if opcode(instruction.word) == COP0 {
                pages.forget();
            }
            Some(Ok(instruction))
        }
        Err(Stop::Raised(exception)) => Some(Err(exception)),
        Err(Stop::TwoMatches) => None,
    }
}

fn run_refusal(
    image: &[u8],
    memory: &Memory,
    journal_len: usize,
    index_len: Option<usize>,
    budget: u64,
) -> u8 {
    if !ram_fits(memory.ram.len()) {
        1
    } else if !(rom_fits(memory.execution_rom.len()) && rom_fits(memory.bootstrap_rom.len())) {
        2
    } else if !paper_fits(memory.paper.len()) {
        3
    } else if !journal_fits(journal_len) {
        4
    } else if !keeps_rules(image, memory.ram.len(), memory.paper.len(), journal_len) {
        5
    } else if !budget_fits(budget) {
        6
    } else if index_len.map_or(false, |length| !index_fits(length, memory.ram.len())) {
        10
    } else if !disks_fit(&decode(image), memory.disk_lengths()) {
        13
    } else {
        0
    }
}

/// Next slot goes round, on hand rises up to the slots; with none neither moves.
#[inline]
pub(crate) fn move_on(machine: &mut Machine, slots: u32) {
    if slots == 0 {
        return;
    }
    machine.next_slot += 1;
    if machine.next_slot == slots {
        machine.next_slot = 0;
    }
    if machine.on_hand < slots {
        machine.on_hand += 1;
    }
}
