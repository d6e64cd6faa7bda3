//! Each rule of the state image, kept and broken (row 5).

mod common;

use common::*;
use reference::{keeps_rules, Machine, Printer, Status, OLD_IMAGE_BYTES};

const SLOTS: u32 = 4;

/// Whether a change of the bench's machine leaves the rules kept; run answers
/// 0 or 5 accordingly.
fn keeps(change: impl Fn(&mut Machine)) -> bool {
    let mut bench = Bench::new();
    change(&mut bench.machine);
    let kept = keeps_rules(&bench.image(), bench.ram.len(), bench.paper.len(), bench.journal.len());
    let before = bench.clone();
    let answer = bench.run_with(0, 0);
    assert_eq!(answer.number, if kept { 0 } else { 5 });
    assert_eq!(bench, before);
    kept
}

/// The bits of a word that may be on, tried one by one.
fn free_bits(set: impl Fn(&mut Machine, u32)) -> u32 {
    (0..32).filter(|bit| keeps(|machine| set(machine, 1 << bit))).map(|bit| 1 << bit).sum()
}

#[test]
fn masks() {
    assert_eq!(free_bits(|machine, word| machine.status = Status(word)), 0x1740_FF3F);
    assert_eq!(free_bits(|machine, word| machine.index = word), 0x8000_3F00);
    assert_eq!(free_bits(|machine, word| machine.entry_hi = word), 0xFFFF_FFC0);
    assert_eq!(free_bits(|machine, word| machine.entry_lo = word), 0xFFFF_FF00);
    for entry in 0..16 {
        assert_eq!(free_bits(|machine, word| machine.tlb[entry].high = word), 0xFFFF_FFC0);
        assert_eq!(free_bits(|machine, word| machine.tlb[entry].low = word), 0xFFFF_FF00);
    }
    assert_eq!(free_bits(|machine, word| machine.cause = word), 0xB000_073C & !0x40);
    for free in [
        free_bits(|machine, word| machine.pc = word),
        free_bits(|machine, word| machine.next_pc = word),
        free_bits(|machine, word| machine.bad_vaddr = word),
        free_bits(|machine, word| machine.epc = word),
        free_bits(|machine, word| machine.timer = word),
        free_bits(|machine, word| machine.registers[31] = word),
        free_bits(|machine, word| machine.printers[2].data0 = word),
        free_bits(|machine, word| machine.printers[2].command = word),
    ] {
        assert_eq!(free, u32::MAX);
    }
}

#[test]
fn head_of_the_image() {
    let good = reset_image();
    for place in 0..5 {
        for bit in 0..8 {
            let mut image = good.clone();
            image[place] ^= 1 << bit;
            assert!(!keeps_rules(&image, 4096, 32, 0));
        }
    }
    assert!(keeps_rules(&good, 4096, 0, 0));
    assert!(!keeps_rules(&good[..good.len() - 1], 4096, 0, 0));
    assert!(!keeps_rules(&good[..OLD_IMAGE_BYTES], 4096, 0, 0));
}

#[test]
fn exception_code_and_random() {
    for code in 0..32 {
        assert_eq!(keeps(|machine| machine.cause = code << 2), code <= 12);
    }
    for field in 0..64 {
        assert_eq!(keeps(|machine| machine.random = field << 8), (1..=15).contains(&field));
    }
    for stray in [0xF01, 0xF80, 0x1F00 | 0x4000, 0x8000_0F00] {
        assert!(!keeps(|machine| machine.random = stray));
    }
}

#[test]
fn pending_and_ip_six() {
    for (pending, cause, kept) in [
        (0, 0, true),
        (0, 0x4000, false),
        (4, 0, false),
        (4, 0x4000, true),
        (5, 0x4000, true),
        (2, 0x4000, false),
        (0x104, 0x4000, false),
    ] {
        let kept_now = keeps(|machine| {
            machine.pending = pending;
            machine.cause = cause;
        });
        assert_eq!(kept_now, kept);
    }
}

#[test]
fn ranges_of_row_6() {
    for (value, kept) in [(0, false), (1, true), (255, true), (256, false)] {
        assert_eq!(keeps(|machine| machine.time_scale = value), kept);
    }
    for (value, kept) in [(0, false), (1, true), (65_535, true), (65_536, false)] {
        assert_eq!(keeps(|machine| machine.printer_delay = value), kept);
    }
    assert!(!keeps(|machine| machine.installed = 0x105));
}

#[test]
fn printers() {
    let busy = Printer { status: 3, command: 2, data0: 9, ticks_left: 2, paper_count: 4 };
    let with = |printer: Printer| keeps(move |machine| machine.printers[2] = printer);
    assert!(with(busy));
    for status in 0..7 {
        assert_eq!(with(Printer { status, ..Printer::default() }), [1, 2, 4].contains(&status));
        assert_eq!(with(Printer { status, ..busy }), status == 3);
    }
    for ticks_left in 0..6 {
        assert_eq!(with(Printer { ticks_left, ..busy }), (1..=DELAY).contains(&ticks_left));
    }
    for command in 0..4 {
        assert_eq!(with(Printer { command, ..busy }), command == 0 || command == 2);
    }
    assert!(!with(Printer { paper_count: 5, ..busy }));
    assert!(!keeps(|machine| {
        machine.printers[2] = busy;
        machine.pending = 4;
        machine.cause = 0x4000;
    }));
    for field in 0..5 {
        assert!(!keeps(|machine| match field {
            0 => machine.printers[1].status = 1,
            1 => machine.printers[1].command = 1,
            2 => machine.printers[1].data0 = 1,
            3 => machine.printers[1].ticks_left = 1,
            _ => machine.printers[1].paper_count = 1,
        }));
    }
}

#[test]
fn reading_72_what_the_machine_never_makes() {
    assert!(keeps(|machine| machine.cause = 0xB000_0000 | 7 << 2));
    assert!(keeps(|machine| machine.index = 0x8000_3F00));
    for (status, pending) in [(1, 4), (2, 4), (4, 4), (1, 0), (2, 0), (4, 0)] {
        assert!(keeps(|machine| {
            machine.printers[2].status = status;
            machine.pending = pending;
            machine.cause = if pending == 0 { 0 } else { 0x4000 };
        }));
    }
    assert!(keeps(|machine| machine.pc = 1));
}

#[test]
fn slot_flag_and_branch_address() {
    for (flag, address, kept) in [
        (0, 0, true),
        (1, 0, true),
        (1, 3, true),
        (1, u32::MAX, true),
        (0, 1, false),
        (0, 1 << 31, false),
        (2, 0, false),
        (0x100, 4, false),
        (1 << 31, 4, false),
        (u32::MAX, u32::MAX, false),
    ] {
        let kept_now = keeps(|machine| {
            machine.slot_flag = flag;
            machine.branch_address = address;
        });
        assert_eq!(kept_now, kept, "{flag} {address}");
    }
}

#[test]
fn reading_87_journal_place() {
    for on_hand in 0..6 {
        for next_slot in 0..6 {
            let kept = keeps(|machine| {
                machine.on_hand = on_hand;
                machine.next_slot = next_slot;
            });
            assert_eq!(kept, on_hand <= SLOTS && next_slot < SLOTS);
        }
    }
    let mut bench = Bench::new();
    assert!(keeps_rules(&bench.image(), 4096, 32, 0));
    bench.machine.next_slot = 1;
    assert!(!keeps_rules(&bench.image(), 4096, 32, 0));
    assert!(!keeps_rules(&bench.image(), 4096, 32, 512));
}
