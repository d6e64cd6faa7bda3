//! Places where a slip in a load or a store would hide: what each is, and how
//! often 200,000 runs have to meet it.

use crate::corners::{table, Corner};
use crate::look::RAM;
use crate::sight::Sight;

#[rustfmt::skip]
pub const ACCESSES: [Corner; 26] = [
    ("loads from the execution ROM", 3_000, |s| {
        s.loads() && s.code.is_none() && s.in_execution_rom()
    }),
    ("loads from the bootstrap ROM", 3_000, |s| {
        s.loads() && s.code.is_none() && s.in_bootstrap_rom()
    }),
    ("stores to a ROM (bus error)", 5_000, |s| {
        s.stores() && s.is(7) && (s.in_execution_rom() || s.in_bootstrap_rom())
    }),
    ("stores to a ROM through a dirty row", 200, |s| {
        s.stores() && s.is(7) && table(s) && (s.in_execution_rom() || s.in_bootstrap_rom())
    }),
    ("accesses of RAM's last word", 1_000, |s| {
        s.code.is_none() && ram_word(s) == Some(s.ram_bytes / 4 - 1)
    }),
    ("accesses just behind RAM", 1_000, |s| {
        s.is(7) && ram_word(s) == Some(s.ram_bytes / 4)
    }),
    ("loads from the device area", 10_000, |s| s.device_load().is_some()),
    ("stores to the device area", 10_000, |s| s.device_store().is_some()),
    ("stores to the device area through the table", 500, |s| {
        s.device_store().is_some() && table(s)
    }),
    ("part words in the device area (bus error)", 5_000, |s| s.is(7) && s.device().is_some()),
    ("words just behind the device area", 200, |s| {
        s.is(7) && s.physical().map_or(false, |place| place / 4 == 0x1000_02D0 / 4)
    }),
    ("timer writes", 500, |s| s.device_store() == Some(0x20)),
    ("timer writes that turn IP[2] off", 100, |s| {
        s.device_store() == Some(0x20) && s.before.cause & 0x400 != 0
    }),
    ("timer writes in the step of a passage", 20, |s| {
        s.device_store() == Some(0x20) && s.timer_passes()
    }),
    ("RESET commands taken", 1_000, |s| command(s, |value| value == 0)),
    ("ACK commands taken", 500, |s| command(s, |value| value == 1)),
    ("PRINTCHR commands taken", 1_000, |s| command(s, |value| value == 2)),
    ("illegal commands taken", 1_000, |s| command(s, |value| value > 2)),
    ("illegal commands with a legal low byte", 100, |s| {
        command(s, |value| value > 255 && value & 0xFF <= 2)
    }),
    ("commands that empty the pending map", 100, |s| {
        command(s, |_| true) && s.before.pending != 0 && s.after.pending == 0
    }),
    ("commands to a busy printer", 1_000, |s| to_printer(s, 4, |status| status == 3)),
    ("commands to an absent printer", 1_000, |s| to_printer(s, 4, |status| status == 0)),
    ("DATA0 of an idle printer", 1_000, |s| to_printer(s, 8, |status| matches!(status, 1 | 2 | 4))),
    ("DATA0 of a busy printer", 1_000, |s| to_printer(s, 8, |status| status == 3)),
    ("DATA0 of an absent printer", 500, |s| to_printer(s, 8, |status| status == 0)),
    ("commands in the step in which the printer finishes", 30, |s| {
        s.printer_store().map_or(false, |(n, field)| field == 4 && s.finishing().any(|f| f == n))
    }),
];

/// The number of the word of RAM, also of one behind it.
fn ram_word(sight: &Sight) -> Option<u32> {
    sight.physical()?.checked_sub(RAM).map(|place| place / 4)
}

fn to_printer(sight: &Sight, wanted: u32, status: fn(u32) -> bool) -> bool {
    sight.printer_store().map_or(false, |(number, field)| {
        let printer = &sight.before.printers[number];
        field == wanted && status(printer.status) && printer.ticks_left != 1
    })
}

fn command(sight: &Sight, value: fn(u32) -> bool) -> bool {
    to_printer(sight, 4, |status| matches!(status, 1 | 2 | 4)) && value(sight.stored())
}
