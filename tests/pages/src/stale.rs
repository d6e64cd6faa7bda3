//! What a wrong run remembers: the last page of fetches and of data, the last
//! page that was missed, and the words at each PC.

use crate::asm::{TLBR, TLBWI, TLBWR};
use crate::faults::Fault::{self, *};
use crate::look::{Access, Kind, Look, ASID, PAGE};
use reference::Machine;
use std::cell::RefCell;
use std::collections::HashMap;

/// A page with one match.
#[derive(Clone, Copy, PartialEq, Eq)]
pub struct Kept {
    pub page: u32,
    pub space: u32,
    pub row: usize,
    pub low: u32,
}

#[derive(Clone, Default)]
pub struct Stale {
    /// Of fetches, and of data.
    pub pages: [Option<Kept>; 2],
    /// Page and ASID.
    pub missed: Option<(u32, u32)>,
    pub words: HashMap<u32, u32>,
}

thread_local! {
    static BETWEEN_CALLS: RefCell<Stale> = RefCell::new(Stale::default());
}

pub fn new_session() {
    BETWEEN_CALLS.with(|kept| *kept.borrow_mut() = Stale::default());
}

pub fn which(access: &Access) -> usize {
    usize::from(access.kind != Kind::Fetch)
}

pub fn asked(access: &Access) -> bool {
    access.aligned && access.allowed && access.translated
}

impl Stale {
    pub fn at_the_start(fault: Fault) -> Stale {
        match fault {
            KeptBetweenCalls => BETWEEN_CALLS.with(|kept| kept.borrow().clone()),
            _ => Stale::default(),
        }
    }

    pub fn at_the_end(self) {
        BETWEEN_CALLS.with(|kept| *kept.borrow_mut() = self);
    }

    /// The page remembered for an access, if the fault or the truth lets it be used.
    pub fn for_access(&self, fault: Fault, machine: &Machine, access: &Access) -> Option<Kept> {
        let near = if fault == NeighbourTaken { PAGE << 1 } else { PAGE };
        let kept = self.pages[which(access)]?;
        let same = (kept.page ^ access.address) & near == 0;
        (same && kept.space == machine.entry_hi & ASID).then_some(kept)
    }

    pub fn note_access(&mut self, fault: Fault, machine: &Machine, access: &Access) {
        if !asked(access) {
            return;
        }
        let (page, space) = (access.address & PAGE, machine.entry_hi & ASID);
        match access.matches.count_ones() {
            1 => {
                let row = access.lowest();
                let low = machine.tlb[row].low;
                self.pages[which(access)] = Some(Kept { page, space, row, low });
                self.missed = None;
            }
            0 if fault == MissRemembered => self.missed = Some((page, space)),
            _ => {}
        }
    }

    /// Behind a step that raised nothing.
    pub fn note_word(&mut self, fault: Fault, look: &Look, before: &Machine, after: &Machine) {
        let operation = look.word.unwrap_or(0) & 0xFE00_003F;
        let space = after.entry_hi & ASID;
        let read = operation == TLBR;
        if if read { fault == AsidReadIgnored } else { fault == AsidMovedIgnored } {
            for kept in self.pages.iter_mut().flatten() {
                kept.space = space;
            }
        }
        let row = match operation {
            TLBWI => before.index >> 8 & 15,
            TLBWR => after.random >> 8 & 15,
            _ => return,
        };
        for of in 0..2 {
            let keeps = |kept: &Kept| keeps(fault, operation, of, kept, row as usize, after);
            self.pages[of] = self.pages[of].filter(keeps);
        }
    }
}

/// Whether a wrong memory keeps a page although a row was written.
fn keeps(
    fault: Fault,
    operation: u32,
    of: usize,
    kept: &Kept,
    row: usize,
    after: &Machine,
) -> bool {
    let matches = |entry: &&reference::Entry| {
        (entry.high ^ kept.page) & PAGE == 0
            && (entry.low & 0x100 != 0 || (entry.high ^ kept.space) & ASID == 0)
    };
    match fault {
        TlbwiDoesNotForget => operation == TLBWI,
        TlbwrDoesNotForget => operation == TLBWR,
        TlbwiForgetsFetchesOnly => operation == TLBWI && of == 1,
        TlbwiForgetsDataOnly => operation == TLBWI && of == 0,
        TlbwrForgetsFetchesOnly => operation == TLBWR && of == 1,
        TlbwrForgetsDataOnly => operation == TLBWR && of == 0,
        OnlyTheWrittenRowForgotten => kept.row != row,
        OnlyTheWrittenPageForgotten => (kept.page ^ after.entry_hi) & PAGE != 0,
        DoubledPageKept => after.tlb.iter().filter(matches).count() > 1,
        _ => false,
    }
}
