//! Steps that meet two matches, or nearly, and are taken or not come to: what
//! each is, and how often 200,000 runs have to meet it.

use crate::asm::TLBP;
use crate::look::*;
use crate::sight::{End, Sight};

pub type KindMet = (&'static str, u64, fn(&Sight) -> bool);

/// An interrupt that only the tick of this step has brought.
fn interrupt_by(sight: &Sight, line: u32) -> bool {
    let status = sight.before.status.0;
    sight.entered(0)
        && status & sight.look.ticked & 0xFF00 == line
        && sight.before.cause & line == 0
}

fn fetch(sight: &Sight) -> bool {
    sight.look.fetch.meets_two()
}

/// A load or store that meets two, behind a fetch that meets one.
fn data(sight: &Sight) -> bool {
    !fetch(sight) && sight.look.data.map_or(false, |data| data.meets_two())
}

/// The load or store is the same but for one test.
fn but(sight: &Sight, kind: Kind, holds: fn(&Access) -> bool) -> bool {
    let data = sight.look.data.filter(|data| data.kind == kind && data.twofold());
    !sight.look.interrupt && data.map_or(false, |data| holds(&data))
}

fn mistaken(sight: &Sight, code: u32) -> bool {
    sight.entered(code) && sight.look.mistaken.map_or(false, |access| access.meets_two())
}

fn probes(sight: &Sight, holds: fn(u32) -> bool) -> bool {
    let matches = |entry: &&reference::Entry| {
        let own = (entry.high ^ sight.before.entry_hi) & ASID == 0;
        (entry.high ^ sight.before.entry_hi) & PAGE == 0 && (own || entry.low & GLOBAL != 0)
    };
    let count = || sight.before.tlb.iter().filter(matches).count() as u32;
    sight.end == End::Taken(None) && sight.look.word == Some(TLBP) && holds(count())
}

/// One entry matches, and others have the page.
fn strangers_beside(access: &Access) -> bool {
    access.aligned
        && access.allowed
        && access.translated
        && access.matches.count_ones() == 1
        && access.strangers != 0
}

#[rustfmt::skip]
pub const TAKEN: [KindMet; 29] = [
    ("interrupts at a fetch that meets two", 1_000, |s| s.entered(0) && fetch(s)),
    ("at such a fetch, by the timer's passage in that step", 300, |s| {
        fetch(s) && interrupt_by(s, TIMER_LINE)
    }),
    ("at such a fetch, by a printer's finish in that step", 150, |s| {
        fetch(s) && interrupt_by(s, PRINTER_LINE)
    }),
    ("interrupts at a load or store that meets two", 2_000, |s| s.entered(0) && data(s)),
    ("at such a load or store, by the timer's passage in that step", 850, |s| {
        data(s) && interrupt_by(s, TIMER_LINE)
    }),
    ("at such a load or store, by a printer's finish in that step", 400, |s| {
        data(s) && interrupt_by(s, PRINTER_LINE)
    }),
    ("fetches at no multiple of 4 on a page with two", 900, |s| {
        s.entered(4) && !s.look.fetch.aligned && s.look.fetch.twofold()
    }),
    ("fetches that user mode must not make, of a page with two", 500, |s| {
        s.entered(4) && !s.look.fetch.allowed && s.look.fetch.twofold()
    }),
    ("loads that are not aligned", 400, |s| s.entered(4) && but(s, Kind::Load, |a| !a.aligned)),
    ("stores that are not aligned", 400, |s| s.entered(5) && but(s, Kind::Store, |a| !a.aligned)),
    ("loads that user mode must not make", 850, |s| {
        s.entered(4) && but(s, Kind::Load, |a| a.aligned && !a.allowed)
    }),
    ("stores that user mode must not make", 850, |s| {
        s.entered(5) && but(s, Kind::Store, |a| a.aligned && !a.allowed)
    }),
    ("loads below the table's addresses", 1_000, |s| {
        s.taken() && translation(s.before) && but(s, Kind::Load, |a| a.allowed && !a.translated)
    }),
    ("stores below the table's addresses", 1_000, |s| {
        s.taken() && translation(s.before) && but(s, Kind::Store, |a| a.allowed && !a.translated)
    }),
    ("fetches with translation off", 6_000, |s| {
        s.taken() && !translation(s.before) && s.look.fetch.twofold()
    }),
    ("loads or stores with translation off", 350, |s| {
        let off = s.taken() && !translation(s.before);
        off && (but(s, Kind::Load, |_| true) || but(s, Kind::Store, |_| true))
    }),
    ("Reserved words", 1_000, |s| mistaken(s, 10)),
    ("unusable words", 1_000, |s| mistaken(s, 11)),
    ("TLBP with two", 1_500, |s| probes(s, |count| count == 2)),
    ("TLBP with more", 650, |s| probes(s, |count| count > 2)),
    ("TLBP with fewer", 850, |s| probes(s, |count| count < 2)),
    ("fetches with one match and strangers", 2_500, |s| {
        s.taken() && strangers_beside(&s.look.fetch)
    }),
    ("loads or stores with one match and strangers", 4_500, |s| {
        s.taken() && s.look.data.map_or(false, |data| strangers_beside(&data))
    }),
    ("misses beside strangers alone", 1_000, |s| {
        let alone = |a: &Access| a.translated && a.allowed && a.matches == 0 && a.strangers != 0;
        (s.entered(2) || s.entered(3)) && s.look.data.map_or(false, |data| alone(&data))
    }),
    ("fetches that raise, no word to look at", 25_000, |s| {
        (s.entered(2) || s.entered(6)) && s.look.word.is_none()
    }),
    ("two matches behind a budget just spent", 6_000, |s| {
        s.end == End::Spent && s.look.halt().is_some() && s.steps > 0
    }),
    ("a fetch, the budget just spent", 1_500, |s| s.end == End::Spent && s.steps > 0 && fetch(s)),
    ("two matches and budget 0", 2_000, |s| {
        s.end == End::Spent && s.look.halt().is_some() && s.call.budget == 0
    }),
    ("done through one match", 3_500, |s| {
        s.end == End::Taken(None) && s.look.data.map_or(false, |a| {
            a.translated && a.matches.count_ones() == 1
        })
    }),
];
