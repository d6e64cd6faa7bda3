//! What has changed since a page was translated last, and whether the next
//! access to the page shows it. A memory of one page for fetches and one for data
//! would be asked there.

use crate::look::{Access, Kind, DIRTY, PAGE, VALID};
use crate::met::Met;
use reference::Machine;

pub const TLBWI: usize = 0;
pub const TLBWR: usize = 1;
pub const MOVED_SPACE: usize = 2;
pub const READ_SPACE: usize = 3;
pub const TRANSLATION: usize = 4;
pub const MODE: usize = 5;
pub const ENTRY: usize = 6;
pub const RETURN: usize = 7;
pub const STATUS: usize = 8;
pub const STORE: usize = 9;
pub const CALL: usize = 10;
pub const TAKE_BACK: usize = 11;

pub const CHANGES: [&str; 12] = [
    "TLBWI",
    "TLBWR",
    "another ASID by MTC0",
    "another ASID by TLBR",
    "VMc off or on",
    "KUc off or on",
    "an exception entry",
    "RFE",
    "MTC0 to Status",
    "a store",
    "the end of a call",
    "a take-back",
];

/// A page with one match, as an access found it.
struct Used {
    page: u32,
    low: u32,
    by: Kind,
    /// Bit n is on where change n happened since.
    since: u32,
}

/// Of fetches, and of loads and stores.
#[derive(Default)]
pub struct Changes {
    last: [Option<Used>; 2],
}

impl Changes {
    pub fn happened(&mut self, change: usize) {
        for used in self.last.iter_mut().flatten() {
            used.since |= 1 << change;
        }
    }

    pub fn access(&mut self, machine: &Machine, access: &Access, met: &mut Met) {
        let which = usize::from(access.kind != Kind::Fetch);
        let page = access.address & PAGE;
        let asked = access.aligned && access.allowed && access.translated;
        let low = match access.matches.count_ones() {
            1 => Some(machine.tlb[access.lowest()].low),
            _ => None,
        };
        if let Some(used) = self.last[which].as_ref().filter(|used| used.page == page) {
            if asked {
                used.asked_again(which, access, low, met);
            } else if access.aligned {
                met.passed_by[usize::from(access.allowed)] += 1;
            }
        }
        if let (true, Some(low)) = (asked, low) {
            self.last[which] = Some(Used { page, low, by: access.kind, since: 0 });
        }
    }
}

impl Used {
    fn asked_again(&self, which: usize, access: &Access, low: Option<u32>, met: &mut Met) {
        for change in (0..CHANGES.len()).filter(|change| self.since >> change & 1 != 0) {
            met.again[which][change] += 1;
            met.other[which][change] += u64::from(low != Some(self.low));
        }
        met.unchanged += u64::from(self.since == 0);
        met.doubled += u64::from(access.twofold());
        met.gone += u64::from(access.matches == 0);
        if let Some(low) = low {
            met.invalid += u64::from(self.low & VALID != 0 && low & VALID == 0);
            let store_behind_load = access.kind == Kind::Store && self.by == Kind::Load;
            met.not_dirty += u64::from(store_behind_load && low & (DIRTY | VALID) == VALID);
        }
    }
}
