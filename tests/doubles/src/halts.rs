//! Places where a slip in a halt would hide: what each is, and how often 200,000
//! runs have to meet it.

use crate::kinds::KindMet;
use crate::look::*;
use crate::sight::Sight;

fn opcode(sight: &Sight, opcode: u32) -> bool {
    sight.halt().map_or(false, |access| access.kind != Kind::Fetch) && sight.opcode() == opcode
}

fn lows(sight: &Sight, holds: fn(u32, u32) -> bool) -> bool {
    sight.lows().map_or(false, |(low, second)| holds(low, second))
}

/// For a store, which alone looks at D.
fn store_lows(sight: &Sight, holds: fn(u32, u32) -> bool) -> bool {
    sight.halted_at(Kind::Store) && lows(sight, holds)
}

/// Whether only G lets the lowest entry, and the second, match.
fn by_global(sight: &Sight) -> Option<(bool, bool)> {
    let halt = sight.halt()?;
    let other = |row: usize| (sight.before.tlb[row].high ^ sight.before.entry_hi) & ASID != 0;
    Some((other(halt.lowest()), other(halt.second())))
}

fn halted(sight: &Sight) -> bool {
    sight.halt().is_some()
}

fn lines(sight: &Sight, holds: fn(u32, u32) -> bool) -> bool {
    halted(sight) && holds(sight.before.status.0, sight.look.ticked & 0xFF00)
}

fn last(sight: &Sight, mask: u32, word: u32) -> bool {
    halted(sight) && sight.last_word.map_or(false, |last| last & mask == word)
}

#[rustfmt::skip]
pub const HALTS: [KindMet; 56] = [
    ("halts", 30_000, halted),
    ("at a fetch", 10_000, |s| s.halted_at(Kind::Fetch)),
    ("at a load", 10_000, |s| s.halted_at(Kind::Load)),
    ("at a store", 10_000, |s| s.halted_at(Kind::Store)),
    ("LB", 1_500, |s| opcode(s, 0x20)),
    ("LH", 1_000, |s| opcode(s, 0x21)),
    ("LWL", 1_500, |s| opcode(s, 0x22)),
    ("LW", 1_000, |s| opcode(s, 0x23)),
    ("LBU", 1_500, |s| opcode(s, 0x24)),
    ("LHU", 1_000, |s| opcode(s, 0x25)),
    ("LWR", 1_000, |s| opcode(s, 0x26)),
    ("SB", 2_000, |s| opcode(s, 0x28)),
    ("SH", 2_000, |s| opcode(s, 0x29)),
    ("SWL", 2_000, |s| opcode(s, 0x2A)),
    ("SW", 1_500, |s| opcode(s, 0x2B)),
    ("SWR", 2_000, |s| opcode(s, 0x2E)),
    ("LWL, LWR, SWL or SWR at no multiple of 4", 5_500, |s| {
        s.halt().map_or(false, |a| a.kind != Kind::Fetch && a.address % 4 != 0)
            && matches!(s.opcode(), 0x22 | 0x26 | 0x2A | 0x2E)
    }),
    ("a load to register 0", 2_500, |s| {
        s.halted_at(Kind::Load) && s.look.word.map_or(false, |word| word >> 16 & 31 == 0)
    }),
    ("V on in both", 15_000, |s| lows(s, |a, b| a & b & VALID != 0)),
    ("V off in the lowest alone", 6_000, |s| lows(s, |a, b| a & VALID == 0 && b & VALID != 0)),
    ("V off in the second alone", 6_000, |s| lows(s, |a, b| a & VALID != 0 && b & VALID == 0)),
    ("V off in both", 2_000, |s| lows(s, |a, b| (a | b) & VALID == 0)),
    ("a store, D on in both", 5_500, |s| store_lows(s, |a, b| a & b & DIRTY != 0)),
    ("a store, D off in the lowest alone", 2_000, |s| {
        store_lows(s, |a, b| a & DIRTY == 0 && b & DIRTY != 0)
    }),
    ("a store, D off in the second alone", 2_000, |s| {
        store_lows(s, |a, b| a & DIRTY != 0 && b & DIRTY == 0)
    }),
    ("a store, D off in both", 700, |s| store_lows(s, |a, b| (a | b) & DIRTY == 0)),
    ("the same frame", 25_000, |s| lows(s, |a, b| (a ^ b) & PAGE == 0)),
    ("the same entry twice", 2_500, |s| {
        s.halt().map_or(false, |a| s.before.tlb[a.lowest()] == s.before.tlb[a.second()])
    }),
    ("different frames", 4_500, |s| lows(s, |a, b| (a ^ b) & PAGE != 0)),
    ("frames where nothing is or devices are", 1_000, |s| {
        lows(s, |a, _| a & PAGE >= 0x7000_0000 || a & PAGE == 0x1000_0000)
    }),
    ("both by the ASID", 10_000, |s| by_global(s) == Some((false, false))),
    ("the lowest by G", 7_500, |s| by_global(s) == Some((true, false))),
    ("the second by G", 7_000, |s| by_global(s) == Some((false, true))),
    ("both by G", 4_000, |s| by_global(s) == Some((true, true))),
    ("G on in both", 15_000, |s| lows(s, |a, b| a & b & GLOBAL != 0)),
    ("three that match", 7_500, |s| s.halt().map_or(false, |a| a.matches.count_ones() == 3)),
    ("more than three", 3_000, |s| s.halt().map_or(false, |a| a.matches.count_ones() > 3)),
    ("entries of other spaces beside them", 20_000, |s| {
        s.halt().map_or(false, |a| a.strangers != 0)
    }),
    ("neighbours in the table", 5_500, |s| {
        s.halt().map_or(false, |a| a.second() == a.lowest() + 1)
    }),
    ("the first and the last entry", 150, |s| s.halt().map_or(false, |a| a.matches == 0x8001)),
    ("in user mode", 8_500, |s| halted(s) && user_mode(s.before)),
    ("a line on, IEc 0", 4_500, |s| lines(s, |status, on| status & 1 == 0 && status & on != 0)),
    ("a line on, IEc 1, IM off", 4_500, |s| lines(s, |status, on| status & 1 != 0 && on != 0)),
    ("in the step of a timer passage", 5_500, |s| halted(s) && timer_passes(s.before)),
    ("in the step of a printer's finish", 3_500, |s| halted(s) && printer_finishes(s.before)),
    ("that would print", 1_500, |s| {
        let eighth = s.call.paper.len() as u32 / 8;
        halted(s) && s.before.printers.iter().any(|printer| {
            printer.ticks_left == 1 && printer.command == 2 && printer.paper_count < eighth
        })
    }),
    ("while a printer is busy", 2_000, |s| {
        halted(s) && s.before.printers.iter().any(|printer| printer.ticks_left > 1)
    }),
    ("at the first step", 8_500, |s| halted(s) && s.steps == 0),
    ("one step before the budget", 10_000, |s| halted(s) && s.steps + 1 == s.call.budget),
    ("with a stop asked for", 15_000, |s| halted(s) && s.call.stop != 0),
    ("behind an exception, no stop asked for", 1_000, |s| halted(s) && s.entered > 0),
    ("in a slot", 1_500, |s| halted(s) && s.before.next_pc != s.before.pc.wrapping_add(4)),
    ("made by TLBWI", 1_500, |s| last(s, 0xFE00_003F, 0x4200_0002)),
    ("made by TLBWR", 1_500, |s| last(s, 0xFE00_003F, 0x4200_0006)),
    ("behind MTC0 to EntryHi", 1_000, |s| last(s, 0xFFE0_F800, 0x4080_5000)),
    ("behind RFE or MTC0 to Status", 2_000, |s| {
        last(s, 0xFE00_003F, 0x4200_0010) || last(s, 0xFFE0_F800, 0x4080_6000)
    }),
];
