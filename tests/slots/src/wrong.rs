//! A run that is wrong on purpose: the reference step by step, with one fault.

use crate::faults::Fault::{self, *};
use crate::fields::{self, FIRST_WORD, IMAGE_BYTES, LENGTH_WORD, VERSION};
use crate::lent::Slices;
use crate::look::{look, Look, TIMER_LINE};
use crate::record::{self, BRANCH_ADDRESS, PC, SLOT_FLAG, UNUSED};
use crate::words::branch_kind;
use reference::layout::RECORD_BYTES;
use reference::{decode, encode, Answer, Machine, Memory};
use reference::{BUDGET_SPENT, EXCEPTION, TWO_MATCHES};

const BD: u32 = 1 << 31;
const PAGE: u32 = 0xFFFF_F000;

/// One step, as it should have been.
struct Step<'a> {
    before: &'a Machine,
    look: &'a Look,
    entered: bool,
}

fn put(image: &mut [u8], word: usize, value: u32) {
    image[FIRST_WORD + 4 * word..][..4].copy_from_slice(&value.to_be_bytes());
}

/// The image in which what this fault does not judge is right.
fn mended(fault: Fault, image: &[u8]) -> Vec<u8> {
    let mut image = image.to_vec();
    if fault == RunTakesOldImages && image.len() == fields::OLD_IMAGE_BYTES {
        image.resize(IMAGE_BYTES, 0);
        image[..FIRST_WORD].copy_from_slice(&fields::head(LENGTH_WORD, VERSION));
    }
    if image.len() != IMAGE_BYTES {
        return image;
    }
    let flag = decode(&image).slot_flag;
    match fault {
        RunTakesAnyFlag if flag > 1 => put(&mut image, fields::SLOT_FLAG, 1),
        RunTakesAnAddressAlone if flag == 0 => put(&mut image, fields::BRANCH_ADDRESS, 0),
        RunTakesTheOldVersionByte => image[FIRST_WORD - 1] = VERSION,
        _ => {}
    }
    image
}

fn forget(machine: &mut Machine) {
    (machine.slot_flag, machine.branch_address) = (0, 0);
}

/// Whether this exception forgets that it is in a slot.
fn forgets(fault: Fault, step: &Step, after: &Machine) -> bool {
    let code = after.cause >> 2 & 31;
    let lines = after.cause & step.before.status.0 & 0xFF00;
    let missed = matches!(after.pc, 0 | 0x1FC0_0100);
    let of_table = code == 2 || code == 3;
    let fetch = step.look.word.is_none() && !step.look.interrupt;
    match fault {
        CodeForgets(which) => code == which,
        FetchFaultsForget => fetch,
        DataFaultsForget => !fetch && (1..=7).contains(&code),
        MissesForget => of_table && missed,
        NotMissedForget => of_table && !missed,
        TimerForgets => code == 0 && lines == TIMER_LINE,
        PrintersForget => code == 0 && lines == 0x4000,
        SoftwareLinesForget => code == 0 && lines & !0x300 == 0,
        _ => false,
    }
}

/// An exception entry in a slot.
fn entry_in_slot(fault: Fault, step: &Step, after: &mut Machine) {
    let before = step.before;
    let code = after.cause >> 2 & 31;
    if forgets(fault, step, after) {
        after.epc = before.pc;
        after.cause &= !BD;
    }
    match fault {
        FlagKeptAtEntry => {
            after.slot_flag = 1;
            after.branch_address = before.branch_address;
        }
        AddressKeptAtEntry => after.branch_address = before.branch_address,
        EpcFromPc => after.epc = before.pc,
        EpcBehindTheBranch => after.epc = before.branch_address.wrapping_add(4),
        EpcFourBeforePc => after.epc = before.pc.wrapping_sub(4),
        BdLeftZero => after.cause &= !BD,
        BdKeptAtInterrupts if code == 0 => after.cause = after.cause & !BD | before.cause & BD,
        BadVAddrIsTheBranch if (1..=5).contains(&code) => after.bad_vaddr = after.epc,
        EntryHiOfTheBranch if (1..=3).contains(&code) => {
            after.entry_hi = after.epc & PAGE | after.entry_hi & !PAGE;
        }
        BadCodeGoesOnWithNextPc => after.next_pc = before.next_pc,
        _ => {}
    }
}

fn entry(fault: Fault, step: &Step, after: &mut Machine) {
    if step.before.slot_flag == 1 {
        entry_in_slot(fault, step, after);
    } else {
        match fault {
            BdAlwaysOne => after.cause |= BD,
            BdNeverCleared => after.cause |= step.before.cause & BD,
            _ => {}
        }
    }
    if fault == EntryHasASlot {
        (after.slot_flag, after.branch_address) = (1, step.before.pc);
    }
}

fn branch(fault: Fault, step: &Step, kind: usize, after: &mut Machine) {
    let before = step.before;
    let in_slot = before.slot_flag == 1;
    let taken = after.next_pc != before.next_pc.wrapping_add(4);
    match fault {
        BranchForgets(which) if which == kind => forget(after),
        NotTakenForgets if !taken => forget(after),
        TakenForgets if taken => forget(after),
        BranchInASlotForgets if in_slot => forget(after),
        FirstOfTwoBranches if in_slot => after.branch_address = before.branch_address,
        AddressOfTheSlot => after.branch_address = after.pc,
        AddressOfTheTarget => after.branch_address = after.next_pc,
        FlagFromNextPc if after.next_pc == after.pc.wrapping_add(4) => forget(after),
        FlagIsTwo => after.slot_flag = 2,
        _ => {}
    }
}

fn other_word(fault: Fault, step: &Step, word: u32, after: &mut Machine) {
    let before = step.before;
    let in_slot = before.slot_flag == 1;
    let has_slot = match fault {
        RfeHasASlot => word & 0xFE00_003F == 0x4200_0010,
        LoadHasASlot => word >> 29 == 4,
        _ => false,
    };
    if has_slot {
        (after.slot_flag, after.branch_address) = (1, before.pc);
    }
    if in_slot && fault == FlagStaysBehindASlot {
        (after.slot_flag, after.branch_address) = (1, before.branch_address);
    }
    if in_slot && fault == AddressStaysBehindASlot {
        after.branch_address = before.branch_address;
    }
}

fn spoil(fault: Fault, step: &Step, after: &mut Machine) {
    if step.entered {
        return entry(fault, step, after);
    }
    let word = step.look.word.unwrap_or(0);
    match branch_kind(word) {
        Some(kind) => branch(fault, step, kind, after),
        None => other_word(fault, step, word, after),
    }
}

fn spoil_record(fault: Fault, slot: &mut [u8], after: &Machine) {
    let (flag, address) = (record::word(slot, SLOT_FLAG), record::word(slot, BRANCH_ADDRESS));
    let pc = record::word(slot, PC);
    match fault {
        RecordWithoutTheSlot => slot[4 * SLOT_FLAG..][..8].fill(0),
        RecordOfTheFlagBehind => {
            record::set(slot, SLOT_FLAG, after.slot_flag);
            record::set(slot, BRANCH_ADDRESS, after.branch_address);
        }
        RecordOfPc if flag == 1 => record::set(slot, BRANCH_ADDRESS, pc),
        RecordFlagInTheLastWord => record::set(slot, UNUSED, flag),
        RecordInTheOldPlaces => {
            slot.copy_within(4 * (BRANCH_ADDRESS + 1)..4 * UNUSED, 4 * SLOT_FLAG);
            record::set(slot, UNUSED - 2, flag);
            record::set(slot, UNUSED - 1, address);
        }
        _ => {}
    }
}

impl Slices<'_> {
    fn machine(&self) -> Machine {
        decode(self.image)
    }

    fn look(&mut self, machine: &Machine) -> Look {
        let memory = Memory {
            execution_rom: self.execution,
            bootstrap_rom: self.bootstrap,
            ram: self.ram,
            paper: self.paper,
            disks: reference::no_disks(),
        };
        look(machine, &memory)
    }

    fn reference(&mut self, budget: u64, stop: u64) -> Answer {
        let Slices { image, execution, bootstrap, ram, paper, journal, index } = self;
        reference::diskless::run_with_records(
            image, execution, bootstrap, ram, paper, journal, index, budget, stop,
        )
    }

    /// One step, then its fault.
    fn step(&mut self, fault: Fault) -> Answer {
        let before = self.machine();
        let look = self.look(&before);
        let answer = self.reference(1, 1);
        let mut after = self.machine();
        if answer.number == 0 && answer.steps == 1 {
            let entered = answer.reason == EXCEPTION;
            spoil(fault, &Step { before: &before, look: &look, entered }, &mut after);
            let slot = RECORD_BYTES * before.next_slot as usize;
            if let Some(slot) = self.journal.get_mut(slot..slot + RECORD_BYTES) {
                spoil_record(fault, slot, &after);
            }
        }
        if answer.reason == TWO_MATCHES {
            match fault {
                HaltForgets => forget(&mut after),
                HaltClearsTheAddress => after.branch_address = 0,
                _ => {}
            }
        }
        encode(&after, self.image);
        answer
    }

    pub fn run(&mut self, fault: Fault, budget: u64, stop: u64) -> Answer {
        let mended = mended(fault, self.image);
        if mended != self.image {
            return self.on_mended(mended, budget, stop);
        }
        let judged = self.reference(0, stop);
        if judged.number != 0 || budget == 0 {
            return judged;
        }
        let mut steps = 0;
        loop {
            if u64::from(steps) == budget {
                return self.done(fault, BUDGET_SPENT, steps);
            }
            let answer = self.step(fault);
            if answer.number != 0 {
                // An image that the fault has spoiled.
                return self.done(fault, BUDGET_SPENT, steps);
            }
            steps += answer.steps;
            if answer.reason == TWO_MATCHES || answer.reason == EXCEPTION && stop != 0 {
                return self.done(fault, answer.reason, steps);
            }
        }
    }

    /// A run that should have been refused.
    fn on_mended(&mut self, mut image: Vec<u8>, budget: u64, stop: u64) -> Answer {
        let Slices { execution, bootstrap, ram, paper, journal, index, .. } = self;
        let image = &mut image;
        Slices { image, execution, bootstrap, ram, paper, journal, index }.reference(budget, stop)
    }

    fn done(&mut self, fault: Fault, reason: u8, steps: u32) -> Answer {
        if fault == FlagLostAtTheEndOfARun {
            let mut machine = self.machine();
            forget(&mut machine);
            encode(&machine, self.image);
        }
        Answer::done(reason, steps)
    }
}
