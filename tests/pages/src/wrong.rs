//! A run that remembers pages, wrongly on purpose: the reference step by step, on
//! a machine whose table or Status is for this step what the memory makes of it.

use crate::faults::Fault::{self, *};
use crate::lent::Slices;
use crate::look::{look, Access, Kind, Look, ASID, DIRTY, GLOBAL, PAGE, RAM, VALID};
use crate::stale::{asked, Kept, Stale};
use reference::layout::RECORD_BYTES;
use reference::layout::STATUS;
use reference::{decode, encode, Answer, Entry, Machine, Memory, Status};
use reference::{BUDGET_SPENT, EXCEPTION, TWO_MATCHES};

const USER: u32 = 1 << 1;
const VM: u32 = 1 << 24;

/// A page that no scene has.
const NOWHERE: u32 = 0x5A5A_5000;

/// The page is this entry's alone; with None no entry's.
fn give(machine: &mut Machine, page: u32, row: usize, low: Option<u32>) {
    let space = machine.entry_hi & ASID;
    for entry in &mut machine.tlb {
        let here = entry.low & GLOBAL != 0 || (entry.high ^ space) & ASID == 0;
        if here && (entry.high ^ page) & PAGE == 0 {
            entry.high = NOWHERE;
        }
    }
    if let Some(low) = low {
        machine.tlb[row] = Entry { high: page | space, low };
    }
}

/// Makes the machine what the memory takes it for, at one access.
fn mislead(fault: Fault, stale: &Stale, machine: &mut Machine, access: &Access) {
    let page = access.address & PAGE;
    if stale.missed == Some((page, machine.entry_hi & ASID)) && asked(access) {
        return give(machine, page, 0, None);
    }
    let Some(Kept { row, mut low, .. }) = stale.for_access(fault, machine, access) else {
        return;
    };
    if !access.aligned {
        return;
    }
    match fault {
        DirtyIgnored if access.kind == Kind::Store => low |= DIRTY,
        ValidIgnored => low |= VALID,
        ModeIgnored if !access.allowed => machine.status.0 &= !USER,
        TranslationOffIgnored if access.kind != Kind::Fetch && machine.status.0 & VM == 0 => {
            let code = machine.pc & PAGE;
            give(machine, code, 15, Some(code | VALID));
            machine.status = Status(machine.status.0 & !USER | VM);
        }
        _ => {}
    }
    let truly = access.matches.count_ones() == 1 && machine.tlb[access.lowest()].low == low;
    if !truly && table_is_asked(machine, access) {
        give(machine, page, row, Some(low));
    }
}

/// Whether the access is one that the table is asked for, as Status is now.
fn table_is_asked(machine: &Machine, access: &Access) -> bool {
    let open_from = if machine.status.0 & USER != 0 { 0x8000_0000 } else { 0 };
    machine.status.0 & VM != 0 && access.address >= RAM.max(open_from)
}

impl Slices<'_> {
    fn memory(&mut self) -> Memory<'_> {
        Memory {
            execution_rom: self.execution,
            bootstrap_rom: self.bootstrap,
            ram: self.ram,
            paper: self.paper,
            disks: reference::no_disks(),
        }
    }

    fn look(&mut self, machine: &Machine) -> Look {
        look(machine, &self.memory())
    }

    /// The word that stood at PC when the run came there first, in its place.
    fn old_word(&mut self, stale: &mut Stale, machine: &Machine, look: &Look) {
        let Some(word) = look.word else { return };
        let old = *stale.words.entry(machine.pc).or_insert(word);
        let low = machine.tlb.get(look.fetch.lowest()).map_or(0, |entry| entry.low);
        let frame = if look.fetch.translated { low } else { machine.pc };
        let place = (frame & PAGE | machine.pc & !PAGE).wrapping_sub(RAM) as usize;
        if let (true, Some(four)) = (old != word, self.ram.get_mut(place..place + 4)) {
            four.copy_from_slice(&old.to_le_bytes());
        }
    }

    /// One step, misled; the reason of a run of one step.
    fn step(&mut self, fault: Fault, stale: &mut Stale, stop: u64) -> u8 {
        let machine = decode(self.image);
        let mut taken = machine.clone();
        let first = self.look(&machine);
        if !first.interrupt {
            if fault == OldCodeRun {
                self.old_word(stale, &machine, &first);
            }
            mislead(fault, stale, &mut taken, &first.fetch);
            if let Some(data) = self.look(&taken).data {
                mislead(fault, stale, &mut taken, &data);
            }
        }
        let look = self.look(&taken);
        let record = RECORD_BYTES * machine.next_slot as usize + 4 * STATUS;
        encode(&taken, self.image);
        let Slices { image, execution, bootstrap, ram, paper, journal, index } = self;
        let answer = reference::diskless::run_with_records(
            image, execution, bootstrap, ram, paper, journal, index, 1, 1,
        );
        if answer.reason == TWO_MATCHES {
            encode(&machine, self.image);
            return TWO_MATCHES;
        }
        if let Some(four) = self.journal.get_mut(record..record + 4) {
            four.copy_from_slice(&machine.status.0.to_le_bytes());
        }
        let mut after = decode(self.image);
        undo(&machine, &taken, &mut after);
        encode(&after, self.image);
        note(fault, stale, &look, [&taken, &after], answer);
        if answer.reason == EXCEPTION && stop == 0 {
            BUDGET_SPENT
        } else {
            answer.reason
        }
    }

    pub fn run(&mut self, fault: Fault, budget: u64, stop: u64) -> Answer {
        let mut stale = Stale::at_the_start(fault);
        let mut steps = 0;
        let reason = loop {
            if u64::from(steps) == budget {
                break BUDGET_SPENT;
            }
            match self.step(fault, &mut stale, stop) {
                TWO_MATCHES => break TWO_MATCHES,
                EXCEPTION => {
                    steps += 1;
                    break EXCEPTION;
                }
                _ => steps += 1,
            }
        };
        stale.at_the_end();
        Answer::done(reason, steps)
    }
}

/// What was made up for the step goes; what the step itself wrote stays.
fn undo(machine: &Machine, taken: &Machine, after: &mut Machine) {
    for row in 0..16 {
        if after.tlb[row] == taken.tlb[row] {
            after.tlb[row] = machine.tlb[row];
        }
    }
    if after.status == taken.status {
        after.status = machine.status;
    } else if after.status == taken.status.pushed() {
        after.status = machine.status.pushed();
    }
}

fn note(
    fault: Fault,
    stale: &mut Stale,
    look: &Look,
    [taken, after]: [&Machine; 2],
    answer: Answer,
) {
    if look.interrupt {
        return;
    }
    stale.note_access(fault, taken, &look.fetch);
    if let Some(data) = &look.data {
        stale.note_access(fault, taken, data);
    }
    if answer.reason != EXCEPTION {
        stale.note_word(fault, look, taken, after);
    }
}
