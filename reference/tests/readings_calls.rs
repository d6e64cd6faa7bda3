//! Readings 64 to 98 that a few lines can test: calls, journal, the rest.

mod common;

use common::asm::*;
use common::*;
use reference::{reset, Answer, BUDGET_SPENT, EXCEPTION, IMAGE_BYTES};

#[test]
fn reading_64_budget_zero() {
    let mut bench = Bench::with(&[SYSCALL]);
    let before = bench.clone();
    assert_eq!(bench.run_with(0, 1), Answer::done(BUDGET_SPENT, 0));
    assert_eq!(bench, before);
    bench.machine.random = 0;
    assert_eq!(bench.run_with(0, 1), Answer::refused(5));
}

#[test]
fn reading_65_all_64_bits_count() {
    let mut bench = Bench::with(&[SYSCALL, NOP]);
    assert_eq!(bench.clone().run_with(2, 1 << 32), Answer::done(EXCEPTION, 1));
    assert_eq!(bench.run_with(2, 0), Answer::done(BUDGET_SPENT, 2));
}

#[test]
fn reading_67_rules_look_at_the_lent_lengths() {
    let mut bench = Bench::new();
    bench.machine.printers[2].paper_count = 4;
    bench.paper.truncate(24);
    assert_eq!(bench.run_with(1, 0).number, 5);
    bench.paper.push(0);
    assert_eq!(bench.run_with(1, 0).number, 3);
}

#[test]
fn reading_68_reset_looks_at_the_length_only() {
    let mut image = vec![0xFF; IMAGE_BYTES];
    assert_eq!(
        reset(&mut image, &mut [0xFF; 16], 1, DELAY.into(), 5, 0, [0; 8]),
        Answer::done(0, 0)
    );
    assert_eq!(image, reset_image());
}

#[test]
fn reading_70_both_reasons_at_one_step() {
    let mut bench = Bench::with(&[NOP, SYSCALL]);
    assert_eq!(bench.clone().run_with(2, 1), Answer::done(EXCEPTION, 2));
    assert_eq!(bench.run_with(2, 0), Answer::done(BUDGET_SPENT, 2));
}

#[test]
fn reading_71_packing() {
    let answer = Answer { number: 9, reason: 2, steps: 0x1234_5678 };
    assert_eq!(answer.packed(), 0x1234_5678_0000_0209);
}

#[test]
fn journal_place_moves_round() {
    let mut bench = Bench::new();
    let places: Vec<(u32, u32)> = (0..6)
        .map(|_| {
            bench.run_with(1, 0);
            (bench.machine.on_hand, bench.machine.next_slot)
        })
        .collect();
    assert_eq!(places, [(1, 1), (2, 2), (3, 3), (4, 0), (4, 1), (4, 2)]);
    let mut without = Bench::new();
    without.journal.clear();
    let without = without.run(3);
    assert_eq!((without.machine.on_hand, without.machine.next_slot), (0, 0));
}

#[test]
fn reading_77_one_slot() {
    let mut bench = Bench::new();
    bench.journal.truncate(512);
    let bench = bench.run(3);
    assert_eq!((bench.machine.on_hand, bench.machine.next_slot), (1, 0));
}

#[test]
fn reading_88_reset_empties_the_journal() {
    let mut image = Bench::new().run(3).image();
    assert_eq!(reference::decode(&image).on_hand, 3);
    reset(&mut image, &mut [0; 16], 1, 1, 0, 0, [0; 8]);
    let machine = reference::decode(&image);
    assert_eq!((machine.on_hand, machine.next_slot), (0, 0));
}

#[test]
fn reading_90_no_hazards() {
    let words = [special(24, 4, 5, 0), special(18, 0, 0, 6), lw(7, 0x100, 9), addiu(7, 7, 1)];
    let mut bench = Bench::with(&words).register(4, 6).register(5, 7);
    put_words(&mut bench.ram, 0x100, &[41]);
    let bench = bench.run(4);
    assert_eq!((bench.reg(6), bench.reg(7)), (42, 42));
}

#[test]
fn reading_90_stored_words_are_fetched() {
    let bench = Bench::with(&[sw(4, 4, 9), NOP]).register(4, addiu(6, 0, 5)).run(2);
    assert_eq!(bench.reg(6), 5);
}

#[test]
fn reading_91_sizes_follow_the_present_call() {
    let mut bench = Bench::with(&[lw(6, 4, 8), lw(7, 0xC, 8)]).run(1);
    assert_eq!(bench.reg(6), 0x2000);
    bench.ram.truncate(0x1000);
    bench.execution.truncate(8);
    let bench = bench.run(1);
    assert_eq!(bench.reg(7), 8);
}

#[test]
fn reading_93_interrupt_entry_keeps_ip() {
    let mut bench = Bench::new().status(KERNEL | 1 | 0x200);
    bench.machine.cause = 0xB000_0730;
    assert_eq!(bench.trap(1).machine.cause, 0x0700);
}

#[test]
fn reading_94_status_at_the_start_of_the_step() {
    let bench = Bench::with(&[SYSCALL]).status(0x0540_0000).trap(1);
    assert_eq!((bench.machine.pc, bench.machine.status.0), (0x1FC0_0100, 0x0240_0000));
    let bench = Bench::with(&[SYSCALL]).status(0x0440_0002).trap(1);
    assert_eq!((bench.machine.pc, bench.machine.status.0), (0x1FC0_0180, 0x0040_0008));
}

#[test]
fn reading_95_fault_at_a_vector() {
    let mut bench = Bench::with(&[SYSCALL]);
    bench.execution = vec![0; 4];
    assert_eq!(bench.run_with(4, 0), Answer::done(BUDGET_SPENT, 4));
    assert_eq!((bench.code(), bench.machine.epc, bench.machine.pc), (6, 0x80, 0x80));
}

#[test]
fn reading_96_images_of_another_length() {
    for length in [0, 4, 500, 502] {
        let mut image = reset_image();
        image.resize(length, 0);
        let before = image.clone();
        let answer = reference::run(
            &mut image,
            &[0; 4],
            &[0; 4],
            &mut [0; 4096],
            &mut [],
            &mut [],
            reference::no_disks(),
            1,
            0,
        );
        assert_eq!((answer, image), (Answer::refused(5), before));
    }
}

#[test]
fn reading_97_decoding_before_addresses() {
    for opcode in [0x27, 0x2C, 0x2D, 0x2F, 0x30, 0x38] {
        assert_eq!(Bench::with(&[immediate(opcode, 9, 4, 1)]).trap(1).code(), 10);
    }
    let bench = Bench::with(&[immediate(0x31, 9, 4, 1)]).trap(1);
    assert_eq!((bench.code(), bench.ce(), bench.machine.bad_vaddr), (11, 1, 0));
}

#[test]
fn clock_wraps() {
    let mut bench = Bench::with(&[lw(4, 0x18, 8), lw(5, 0x1C, 8)]);
    bench.machine.clock = 0xFFFF_FFFF;
    let bench = bench.run(2);
    assert_eq!((bench.reg(4), bench.reg(5)), (1, 1));
    let mut bench = Bench::new();
    bench.machine.clock = u64::MAX;
    assert_eq!(bench.run(1).machine.clock, 0);
}
