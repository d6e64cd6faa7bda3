//! Search of the translation table.

use crate::machine::Entry;

pub const PAGE: u32 = 0xFFFF_F000;
pub const ASID: u32 = 0x0000_0FC0;

pub const DIRTY: u32 = 1 << 10;
pub const VALID: u32 = 1 << 9;
pub const GLOBAL: u32 = 1 << 8;

/// The lowest-numbered match, and whether a second entry matches.
pub struct Found {
    pub number: usize,
    pub second: bool,
}

/// Looks for the page of `address` and the ASID of `entry_hi`. G lets the ASID
/// differ, never the page. Every entry is looked at, since a second one counts.
#[inline]
pub fn search(tlb: &[Entry; 16], address: u32, entry_hi: u32) -> Option<Found> {
    let wanted = address & PAGE | entry_hi & ASID;
    let mut matches: u32 = 0;
    for (number, entry) in tlb.iter().enumerate() {
        let compared = if entry.low & GLOBAL != 0 { PAGE } else { PAGE | ASID };
        if (entry.high ^ wanted) & compared == 0 {
            matches |= 1 << number;
        }
    }
    if matches == 0 {
        return None;
    }
    let number = matches.trailing_zeros() as usize;
    Some(Found { number, second: matches.count_ones() > 1 })
}
