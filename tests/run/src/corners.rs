//! Places where a slip in a step would hide: what each is, and how often
//! 200,000 runs have to meet it.

use crate::book::*;
use crate::look::{device_offset, translation, user_mode};
use crate::sight::Sight;

pub type Corner = (&'static str, u64, fn(&Sight) -> bool);

fn branches(sight: &Sight) -> bool {
    sight.done().map_or(false, |word| {
        matches!(opcode(word), 1..=7) || opcode(word) == 0 && matches!(function(word), 8 | 9)
    })
}

fn done(sight: &Sight, code: u32, special: u32) -> bool {
    sight
        .done()
        .map_or(false, |word| opcode(word) == code && (code != 0 || function(word) == special))
}

fn operands(sight: &Sight) -> (u32, u32) {
    let word = sight.word.unwrap_or(0);
    (sight.before.registers[rs(word)], sight.before.registers[rt(word)])
}

pub fn table(sight: &Sight) -> bool {
    sight.data.map_or(false, |route| route.row.is_some())
}

#[rustfmt::skip]
pub const STEPS: [Corner; 39] = [
    ("steps in user mode", 100_000, |s| user_mode(s.before)),
    ("steps with translation on", 100_000, |s| translation(s.before)),
    ("steps in user mode with translation on", 50_000, |s| {
        user_mode(s.before) && translation(s.before)
    }),
    ("steps between a taken branch and its target", 20_000, |s| s.in_slot_of_taken()),
    ("branches in slots", 1_000, |s| s.in_slot_of_taken() && branches(s)),
    ("exceptions in slots", 1_000, |s| s.in_slot_of_taken() && s.code.is_some()),
    ("steps with the slot flag on", 50_000, |s| s.in_slot()),
    ("slots of branches not taken", 10_000, |s| s.in_slot() && !s.in_slot_of_taken()),
    ("exceptions in slots of branches not taken", 1_000, |s| {
        s.in_slot() && !s.in_slot_of_taken() && s.code.is_some()
    }),
    ("interrupts in slots", 1_000, |s| s.in_slot() && s.is(0)),
    ("J or JAL at the end of a region", 1_000, |s| {
        s.before.pc & 0x0FFF_FFFF == 0x0FFF_FFFC && (done(s, 2, 0) || done(s, 3, 0))
    }),
    ("timer passages", 10_000, |s| s.timer_passes()),
    ("timer passages that interrupt at once", 1_000, |s| {
        s.timer_passes() && s.is(0) && s.before.cause & s.before.status.0 & 0xFF00 == 0
    }),
    ("timer passages without an interrupt", 1_000, |s| s.timer_passes() && !s.is(0)),
    ("carries into clock high", 1_000, |s| s.before.clock as u32 == u32::MAX),
    ("rounds of the whole clock", 1_000, |s| s.before.clock == u64::MAX),
    ("Random from 1 to 15", 10_000, |s| s.before.random == 0x100),
    ("steps with a line on and IEc 0", 10_000, |s| {
        s.before.status.0 & 1 == 0 && s.after.cause & s.before.status.0 & 0xFF00 != 0
    }),
    ("steps with a line on, IEc 1 and IM off", 10_000, |s| {
        s.before.status.0 & 1 != 0 && s.before.cause & 0xFF00 != 0 && !s.is(0)
    }),
    ("BD or CE on before an entry", 10_000, |s| s.code.is_some() && s.before.cause >> 28 != 0),
    ("fetches through the table", 100_000, |s| s.fetch.row.is_some()),
    ("fetches that miss", 1_000, |s| s.is(2) && s.data.is_none() && s.fetch.row.is_none()),
    ("fetches through a row not valid", 200, |s| {
        s.is(2) && s.data.is_none() && s.fetch.row.is_some()
    }),
    ("fetches that user mode must not make", 1_000, |s| {
        user_mode(s.before) && s.is(4) && s.data.is_none() && s.before.pc % 4 == 0
    }),
    ("interrupts at a fetch with two rows that match", 1_000, |s| s.is(0) && s.fetch.doubled),
    ("accesses that G lets through", 1_000, |s| s.data.map_or(false, |r| r.by_global)),
    ("misses by ASID alone", 1_000, |s| {
        s.data.map_or(false, |r| r.wrong_asid && r.row.is_none()) && (s.is(2) || s.is(3))
    }),
    ("rows not valid", 1_000, |s| table(s) && s.physical().is_none() && (s.is(2) || s.is(3))),
    ("user mode, VMc 1, a row for the page below 0x80000000", 300, |s| {
        user_mode(s.before) && translation(s.before) && s.data.map_or(false, |route| {
            let page = route.address & 0xFFFF_F000;
            let below = (0x2000_0000..0x8000_0000).contains(&page);
            below && s.before.tlb.iter().any(|row| row.high & 0xFFFF_F000 == page)
        })
    }),
    ("user mode at 0x80000000 and its page", 500, |s| {
        user_mode(s.before) && s.code.is_none() && s.address().map_or(false, |a| a >> 12 == 0x80000)
    }),
    ("fetches at no multiple of 4", 1_000, |s| s.is(4) && s.before.pc % 4 != 0),
    ("fetches in the device area", 200, |s| {
        s.is(6) && s.fetch.physical.and_then(device_offset).is_some()
    }),
    ("divisions by 0", 1_000, |s| (done(s, 0, 26) || done(s, 0, 27)) && operands(s).1 == 0),
    ("-2^31 / -1", 50, |s| done(s, 0, 26) && operands(s) == (0x8000_0000, 0xFFFF_FFFF)),
    ("JALR with rd = rs", 200, |s| done(s, 0, 9) && s.done().map_or(false, |w| rd(w) == rs(w))),
    ("BLTZAL or BGEZAL with rs = 31", 200, |s| {
        done(s, 1, 0) && s.done().map_or(false, |w| rt(w) >= 16 && rs(w) == 31)
    }),
    ("register 0 as target of a sum", 200, |s| {
        done(s, 0, 33) && s.done().map_or(false, |w| rd(w) == 0)
    }),
    ("CP0 used in user mode", 1_000, |s| user_mode(s.before) && done(s, 0x10, 0)),
    ("RFE or MTC0 that ends kernel mode", 500, |s| {
        done(s, 0x10, 0) && !user_mode(s.before) && user_mode(s.after)
    }),
];
