//! When a run that is wrong on purpose stops.

use crate::faults::Fault::{self, *};
use crate::look::*;
use reference::Machine;

fn part_word(word: u32) -> bool {
    matches!(word >> 26, 0x22 | 0x26 | 0x2A | 0x2E)
}

fn interrupt(fault: Fault, machine: &Machine, look: &Look) -> bool {
    let printers = if printer_finishes(machine) { PRINTER_LINE } else { 0 };
    let timer = if timer_passes(machine) { TIMER_LINE } else { 0 };
    match fault {
        InterruptHeldBack => false,
        LinesBeforeTheTick => interrupts(machine, machine.cause),
        TimerOverlooked => interrupts(machine, machine.cause | printers),
        PrinterOverlooked => interrupts(machine, machine.cause | timer),
        MaskedLineCounts => machine.status.0 & 1 != 0 && look.ticked & 0xFF00 != 0,
        DisabledLineCounts => machine.status.0 & look.ticked & 0xFF00 != 0,
        _ => look.interrupt,
    }
}

/// The entries that count as matches.
fn rows(fault: Fault, machine: &Machine, access: &Access) -> u16 {
    let only = |keeps: &dyn Fn(u32, u32) -> bool| {
        let entries = machine.tlb.iter().enumerate();
        let kept = entries.filter(|(_, entry)| keeps(entry.high, entry.low));
        kept.fold(0, |rows, (number, _)| rows | 1 << number)
    };
    let store = access.kind == Kind::Store;
    access.matches
        & match fault {
            FirstEntryOverlooked => !1,
            LastEntryOverlooked => 0x7FFF,
            BothValid => only(&|_, low| low & VALID != 0),
            StoreBothDirty if store => only(&|_, low| low & DIRTY != 0),
            GlobalOverlooked => only(&|high, _| (high ^ machine.entry_hi) & ASID == 0),
            _ => u16::MAX,
        }
        | match fault {
            AnySpace => access.strangers,
            GlobalIgnoresThePage if access.matches != 0 => only(&|_, low| low & GLOBAL != 0),
            _ => 0,
        }
}

fn twofold(fault: Fault, machine: &Machine, access: &Access) -> bool {
    let rows = rows(fault, machine, access);
    if rows.count_ones() < 2 {
        return false;
    }
    let lowest = rows.trailing_zeros() as usize;
    let second = (rows & (rows - 1)).trailing_zeros() as usize;
    let (low, other) = (machine.tlb[lowest].low, machine.tlb[second].low);
    match fault {
        LowestValid => low & VALID != 0,
        LowestNotValid => low & VALID == 0,
        DifferentFrames => (low ^ other) & PAGE != 0,
        NextEntryOnly => second == lowest + 1,
        SecondInTheLowerHalf => second < 8,
        ThirdNeeded => rows.count_ones() > 2,
        _ => true,
    }
}

fn meets_two(fault: Fault, machine: &Machine, access: &Access) -> bool {
    let aligned = access.aligned || fault == AlignmentAfterwards;
    let allowed = access.allowed || fault == PrivilegeAfterwards;
    let translated = match fault {
        UntranslatedToo => translation(machine),
        TranslationOffToo => access.address >= RAM,
        _ => access.translated,
    };
    aligned && allowed && translated && twofold(fault, machine, access)
}

/// The load or store of the word, or what is taken for one.
fn access(fault: Fault, look: &Look) -> Option<Access> {
    let word = look.word?;
    let overlooked = match fault {
        LoadsOverlooked => look.data.map_or(false, |data| data.kind == Kind::Load),
        StoresOverlooked => look.data.map_or(false, |data| data.kind == Kind::Store),
        PartWordsOverlooked => part_word(word),
        RegisterZeroOverlooked => word >> 29 == 4 && word >> 16 & 31 == 0,
        FetchAlone => true,
        _ => false,
    };
    let taken_for_one = match fault {
        ReservedAccesses => matches!(word >> 26, 0x27 | 0x2C | 0x2D | 0x2F | 0x30 | 0x38),
        UnusableAccesses => matches!(word >> 26, 0x11..=0x13 | 0x31..=0x33 | 0x39..=0x3B),
        _ => false,
    };
    match (overlooked, taken_for_one) {
        (true, _) => None,
        (false, true) => look.mistaken,
        (false, false) => look.data,
    }
}

fn probe(machine: &Machine, look: &Look) -> bool {
    let matches = |entry: &&reference::Entry| {
        let other_space = (entry.high ^ machine.entry_hi) & ASID != 0;
        (entry.high ^ machine.entry_hi) & PAGE == 0 && !(other_space && entry.low & GLOBAL == 0)
    };
    look.word.map_or(false, |word| word & 0xFE00_003F == 0x4200_0008)
        && machine.tlb.iter().filter(matches).count() > 1
}

pub fn halts(fault: Fault, machine: &Machine, look: &Look, stop: u64) -> bool {
    let never = match fault {
        NeverHalts => true,
        OnlyWhereAStopIsAsked => stop == 0,
        OnlyWhereNoStopIsAsked => stop != 0,
        _ => interrupt(fault, machine, look),
    };
    let fetch = fault != FetchOverlooked && meets_two(fault, machine, &look.fetch);
    let access = access(fault, look).map_or(false, |data| meets_two(fault, machine, &data));
    !never && (fetch || access || fault == ProbeHalts && probe(machine, look))
}
