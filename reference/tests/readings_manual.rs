//! Readings 1 to 9: where document 01 and the manual differ.

mod common;

use common::asm::*;
use common::*;

const PAGE: u32 = 0x8000_0000;

#[test]
fn reading_01_lowest_entry_counts() {
    let mut bench = Bench::with(&[TLBP, lw(6, 0, 4)])
        .register(4, PAGE)
        .entry(3, PAGE, (RAM + 0x1000) | VALID | GLOBAL)
        .entry(9, PAGE, RAM | VALID | GLOBAL)
        .entry(1, RAM, RAM | VALID | GLOBAL)
        .status(KERNEL | VM);
    bench.machine.entry_hi = PAGE;
    put_words(&mut bench.ram, 0x1000, &[0x1234]);
    // No run takes the second step; the step itself is what it was.
    let mut bench = bench.run(1);
    assert!(!bench.step());
    assert_eq!((bench.reg(6), bench.machine.index), (0x1234, 3 << 8));
}

#[test]
fn reading_02_cp0_in_user_mode_is_unusable() {
    let bench = Bench::with(&[mfc0(6, STATUS)]).status(USER).trap(1);
    assert_eq!((bench.code(), bench.ce()), (11, 0));
}

#[test]
fn reading_03_user_reaches_devices_through_the_table() {
    let bench = Bench::with(&[lw(6, 0x24, 4)])
        .register(4, PAGE + 0x1000)
        .entry(1, PAGE, RAM | VALID | GLOBAL)
        .entry(2, PAGE + 0x1000, BUS | VALID | GLOBAL)
        .status(USER | VM)
        .pc(PAGE)
        .run(1);
    assert_eq!(bench.reg(6), 1);
}

#[test]
fn reading_04_clocks_move_first() {
    let words = [lw(4, 0x1C, 8), lw(5, 0x20, 8), mfc0(6, RANDOM), TLBWR];
    let bench = Bench::with(&words).run(4);
    assert_eq!((bench.reg(4), bench.reg(5), bench.reg(6)), (1, 0xFFFF_FFFD, 12 << 8));
    let mut first = Bench::with(&[TLBWR]);
    first.machine.entry_lo = 0x700;
    let first = first.run(1);
    let written: Vec<usize> = (0..16).filter(|&entry| first.machine.tlb[entry].low != 0).collect();
    assert_eq!(written, [14]);
}

#[test]
fn reading_05_any_command_clears_pending() {
    for (command, pending_after, status) in [(0, 0, 3), (1, 0, 1), (2, 0, 3), (9, 4, 2)] {
        let mut bench = Bench::with(&[sw(4, printer(2) + 4, 8)]).register(4, command);
        bench.machine.pending = 4;
        bench.machine.cause = 0x4000;
        let bench = bench.run(1);
        assert_eq!(bench.machine.pending, pending_after);
        assert_eq!(bench.machine.cause, if pending_after == 0 { 0 } else { 0x4000 });
        assert_eq!(bench.machine.printers[2].status, status);
        assert_eq!(bench.machine.printers[2].command, command);
    }
}

#[test]
fn reading_06_probe_without_match_clears_the_field() {
    let mut bench = Bench::with(&[TLBP]);
    bench.machine.index = 0x3F00;
    bench.machine.entry_hi = PAGE;
    assert_eq!(bench.run(1).machine.index, 0x8000_0000);
}

#[test]
fn reading_07_overflow_of_add_addi_sub_only() {
    let big = 0x7FFF_FFFF;
    for (word, traps) in [
        (special(32, 4, 5, 6), true),
        (special(33, 4, 5, 6), false),
        (addi(6, 4, 1), true),
        (addiu(6, 4, 1), false),
        (special(34, 4, 7, 6), true),
        (special(35, 4, 7, 6), false),
    ] {
        let bench = Bench::with(&[word]).register(4, big).register(5, 1).register(7, u32::MAX);
        if traps {
            let bench = bench.trap(1);
            assert_eq!((bench.code(), bench.reg(6), bench.machine.epc), (12, 0, RAM));
        } else {
            assert_eq!(bench.run(1).reg(6), 0x8000_0000);
        }
    }
}

#[test]
fn reading_08_all_registers_reset_to_zero() {
    assert_eq!(reference::decode(&reset_image()).registers, [0; 32]);
}

#[test]
fn reading_09_asid_and_maps() {
    let mut bench = Bench::with(&[lw(6, 0x34, 8), lw(7, 0x48, 8), TLBP]);
    bench.machine.entry_hi = PAGE | 0xFC0;
    bench.machine.pending = 4;
    bench.machine.cause = 0x4000;
    let bench = bench.entry(1, PAGE | 0xF80, 0).entry(7, PAGE | 0xFC0, 0).run(3);
    assert_eq!((bench.reg(6), bench.reg(7), bench.machine.index), (5, 4, 0x700));
}
