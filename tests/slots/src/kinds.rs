//! Steps in slots where a slip would hide: what each is, and how often 200,000
//! runs have to meet it.

use crate::asm::RFE;
use crate::look::{Kind, PRINTER_LINE, TIMER_LINE};
use crate::sight::{bd, Sight};

pub type KindMet = (&'static str, u64, fn(&Sight) -> bool);

fn interrupt_by(sight: &Sight, line: u32) -> bool {
    sight.enters_in_slot(0) && sight.after.cause & sight.before.status.0 & 0xFF00 == line
}

/// Turned on by the tick of this very step.
fn interrupt_at_once(sight: &Sight, line: u32) -> bool {
    interrupt_by(sight, line) && sight.before.cause & line == 0
}

fn data(sight: &Sight, kind: Kind) -> bool {
    sight.look.data.map_or(false, |data| data.kind == kind)
}

fn unusable(sight: &Sight, coprocessor: u32) -> bool {
    sight.enters_in_slot(11) && sight.after.cause >> 28 & 3 == coprocessor
}

/// In the slot of the first of two branches in a row, or behind it.
fn branch_in_slot(sight: &Sight) -> bool {
    sight.in_slot() && sight.branch().is_some()
}

/// A slot that does not stand behind its branch: that was in a slot itself.
fn far_slot(sight: &Sight) -> bool {
    sight.in_slot() && sight.before.pc != sight.before.branch_address.wrapping_add(4)
}

fn is(sight: &Sight, mask: u32, word: u32) -> bool {
    sight.executed().map_or(false, |executed| executed & mask == word)
}

#[rustfmt::skip]
pub const KINDS: [KindMet; 49] = [
    ("slots", 200_000, |s| s.in_slot()),
    ("exceptions in slots", 50_000, |s| s.in_slot() && s.code.is_some()),
    ("0 Int", 2_000, |s| s.enters_in_slot(0)),
    ("0 Int, by the timer alone", 500, |s| interrupt_by(s, TIMER_LINE)),
    ("0 Int, by the timer's passage in that step", 300, |s| interrupt_at_once(s, TIMER_LINE)),
    ("0 Int, by printers alone", 500, |s| interrupt_by(s, PRINTER_LINE)),
    ("0 Int, by a printer's finish in that step", 300, |s| interrupt_at_once(s, PRINTER_LINE)),
    ("0 Int, by IP[0] alone", 150, |s| interrupt_by(s, 0x100)),
    ("0 Int, by IP[1] alone", 150, |s| interrupt_by(s, 0x200)),
    ("1 Mod", 300, |s| s.enters_in_slot(1)),
    ("2 TLBL, a load, not valid", 300, |s| s.enters_in_slot(2) && !s.by_fetch() && !s.missed()),
    ("2 TLBL, a load, a miss", 300, |s| s.enters_in_slot(2) && !s.by_fetch() && s.missed()),
    ("2 TLBL, the fetch, not valid", 100, |s| s.enters_in_slot(2) && s.by_fetch() && !s.missed()),
    ("2 TLBL, the fetch, a miss", 300, |s| s.enters_in_slot(2) && s.by_fetch() && s.missed()),
    ("3 TLBS, not valid", 300, |s| s.enters_in_slot(3) && !s.missed()),
    ("3 TLBS, a miss", 300, |s| s.enters_in_slot(3) && s.missed()),
    ("4 AdEL, a load that is not aligned", 500, |s| {
        s.enters_in_slot(4) && !s.by_fetch() && s.look.data.map_or(false, |data| !data.aligned)
    }),
    ("4 AdEL, a load that user mode must not make", 300, |s| {
        s.enters_in_slot(4) && !s.by_fetch() && s.look.data.map_or(false, |data| data.aligned)
    }),
    ("4 AdEL, the fetch, not aligned", 500, |s| {
        s.enters_in_slot(4) && s.by_fetch() && s.before.pc % 4 != 0
    }),
    ("4 AdEL, the fetch, that user mode must not make", 200, |s| {
        s.enters_in_slot(4) && s.by_fetch() && s.before.pc % 4 == 0
    }),
    ("5 AdES, a store that is not aligned", 500, |s| {
        s.enters_in_slot(5) && s.look.data.map_or(false, |data| !data.aligned)
    }),
    ("5 AdES, a store that user mode must not make", 300, |s| {
        s.enters_in_slot(5) && s.look.data.map_or(false, |data| data.aligned)
    }),
    ("6 IBE", 500, |s| s.enters_in_slot(6)),
    ("7 DBE, a load", 300, |s| s.enters_in_slot(7) && data(s, Kind::Load)),
    ("7 DBE, a store", 300, |s| s.enters_in_slot(7) && data(s, Kind::Store)),
    ("8 Sys", 500, |s| s.enters_in_slot(8)),
    ("9 Bp", 500, |s| s.enters_in_slot(9)),
    ("10 RI", 500, |s| s.enters_in_slot(10)),
    ("11 CpU, coprocessor 0", 300, |s| unusable(s, 0)),
    ("11 CpU, coprocessor 1", 200, |s| unusable(s, 1)),
    ("11 CpU, coprocessor 2", 150, |s| unusable(s, 2)),
    ("11 CpU, coprocessor 3", 100, |s| unusable(s, 3)),
    ("12 Ov", 500, |s| s.enters_in_slot(12)),
    ("branches in slots", 20_000, branch_in_slot),
    ("branches in slots of branches in slots", 2_000, |s| branch_in_slot(s) && far_slot(s)),
    ("slots elsewhere than behind their branch", 20_000, far_slot),
    ("exceptions in such slots", 10_000, |s| far_slot(s) && s.code.is_some()),
    ("interrupts in such slots", 500, |s| far_slot(s) && s.code == Some(0)),
    ("exceptions behind a slot", 10_000, |s| s.code.is_some() && !s.in_slot() && s.steps > 1),
    ("exceptions in no slot, BD on before", 10_000, |s| {
        s.code.is_some() && !s.in_slot() && bd(s.before) == 1
    }),
    ("exceptions in slots, BD off before", 10_000, |s| {
        s.code.is_some() && s.in_slot() && bd(s.before) == 0
    }),
    ("exceptions in slots with branch address 0", 300, |s| {
        s.code.is_some() && s.in_slot() && s.before.branch_address == 0
    }),
    ("exceptions in slots at the first step", 5_000, |s| {
        s.code.is_some() && s.in_slot() && s.steps == 0
    }),
    ("EntryHi or BadVAddr loaded in slots", 5_000, |s| {
        s.in_slot() && matches!(s.code, Some(1..=5))
    }),
    ("RFE in slots", 5_000, |s| s.in_slot() && is(s, 0xFE00_003F, RFE)),
    ("jumps back to EPC", 5_000, |s| {
        is(s, 0xFC00_003F, 8) && s.after.next_pc == s.before.epc
    }),
    ("jumps back to the branch of a slot", 1_000, |s| {
        is(s, 0xFC00_003F, 8) && s.after.next_pc == s.before.epc && bd(s.before) == 1
    }),
    ("MFC0 of Cause with BD on", 3_000, |s| is(s, 0xFFE0_F800, 0x4000_6800) && bd(s.before) == 1),
    ("MTC0 to Cause or Status in slots", 1_000, |s| {
        s.in_slot() && (is(s, 0xFFE0_F800, 0x4080_6800) || is(s, 0xFFE0_F800, 0x4080_6000))
    }),
];
