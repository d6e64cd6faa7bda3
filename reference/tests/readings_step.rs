//! Readings 10 to 28: the step.

mod common;

use common::asm::*;
use common::*;

const IE: u32 = 1;

/// A machine whose timer passes in step `steps`, with its interrupt enabled.
fn timer_in(steps: u32, words: &[u32]) -> Bench {
    let mut bench = Bench::with(words).status(KERNEL | IE | 0x400);
    bench.machine.timer = steps - 1;
    bench
}

#[test]
fn reading_10_interrupt_entry_stops_a_run() {
    let bench = timer_in(2, &[NOP, NOP]).trap(2);
    assert_eq!((bench.code(), bench.machine.pc), (0, 0x80));
}

#[test]
fn reading_11_interrupt_in_the_step_of_its_cause() {
    let bench = timer_in(1, &[addiu(6, 0, 1)]).trap(1);
    assert_eq!((bench.reg(6), bench.machine.epc, bench.machine.cause), (0, RAM, 0x400));
    let mut bench = Bench::with(&[sw(0, printer(0) + 4, 8), NOP, NOP, addiu(6, 0, 1)]);
    bench.machine.status = reference::Status(KERNEL | IE | 0x4000);
    let bench = bench.trap(4);
    assert_eq!((bench.reg(6), bench.machine.epc), (0, RAM + 12));
}

#[test]
fn reading_12_interrupt_before_a_faulting_fetch() {
    let bench = timer_in(1, &[]).pc(0x7000_0001).trap(1);
    assert_eq!((bench.code(), bench.machine.epc), (0, 0x7000_0001));
}

#[test]
fn reading_13_entry_moves_the_clocks() {
    for bench in [timer_in(1, &[]).trap(1), Bench::with(&[SYSCALL]).trap(1)] {
        assert_eq!((bench.machine.clock, bench.machine.random), (1, 0xE00));
    }
}

#[test]
fn reading_13_entry_moves_the_printers() {
    let mut bench = timer_in(1, &[]);
    bench.machine.cause = 0x400;
    bench.machine.printers[0].status = 3;
    bench.machine.printers[0].ticks_left = 2;
    assert_eq!(bench.trap(1).machine.printers[0].ticks_left, 1);
}

#[test]
fn reading_14_entry_between_branch_and_slot_by_l2() {
    let bench = timer_in(2, &[beq(0, 0, 5), NOP]).trap(2);
    assert_eq!((bench.machine.epc, bench.machine.next_pc), (RAM, 0x84));
    assert_eq!(bench.machine.cause >> 31, 1);
}

#[test]
fn reading_15_own_interrupt_test_is_over() {
    let mut bench = Bench::with(&[mtc0(4, STATUS), NOP]).register(4, KERNEL | IE | 0x100);
    bench.machine.cause = 0x100;
    let bench = bench.trap(2);
    assert_eq!(bench.machine.epc, RAM + 4);
    let bench =
        Bench::with(&[mtc0(4, CAUSE), NOP]).register(4, 0x100).status(KERNEL | IE | 0x100).trap(2);
    assert_eq!(bench.machine.epc, RAM + 4);
}

#[test]
fn reading_16_status_counts_from_the_next_fetch() {
    let bench = Bench::with(&[mtc0(4, STATUS), NOP])
        .register(4, KERNEL | VM)
        .entry(2, RAM, (RAM + 0x1000) | VALID | GLOBAL)
        .register(5, 3);
    let mut bench = bench;
    put_words(&mut bench.ram, 0x1004, &[addiu(6, 5, 1)]);
    assert_eq!(bench.run(2).reg(6), 4);
}

#[test]
fn reading_17_cause_write_touches_two_bits() {
    let mut bench = Bench::with(&[mtc0(4, CAUSE)]).register(4, 0x0000_0200);
    bench.machine.cause = 0xB000_4530;
    bench.machine.pending = 1;
    let bench = bench.run(1);
    assert_eq!(bench.machine.cause, 0xB000_4630);
}

#[test]
fn reading_18_random_goes_round() {
    let mut bench = Bench::new();
    bench.machine.random = 0x100;
    assert_eq!(bench.run(1).machine.random, 0xF00);
}

#[test]
fn reading_19_timer_written_in_the_step_of_the_passage() {
    let mut bench = Bench::with(&[sw(4, TIMER, 8), NOP]).register(4, 100);
    bench.machine.timer = 0;
    let bench = bench.run(1);
    assert_eq!((bench.machine.cause, bench.machine.timer), (0, 100));
    assert_eq!(bench.run(1).machine.timer, 99);
    let mut over_zero = Bench::with(&[sw(4, TIMER, 8)]).register(4, u32::MAX);
    over_zero.machine.timer = 1;
    assert_eq!(over_zero.run(1).machine.cause, 0);
}

#[test]
fn reading_20_timer_set_to_zero() {
    let bench = Bench::with(&[sw(0, TIMER, 8), NOP]).run(2);
    assert_eq!((bench.machine.cause, bench.machine.timer), (0x400, u32::MAX));
}

#[test]
fn reading_21_jump_to_an_unaligned_address() {
    let bench = Bench::with(&[jr(4), addiu(6, 0, 1)]).register(4, RAM + 0x102).trap(3);
    assert_eq!((bench.code(), bench.reg(6)), (4, 1));
    assert_eq!((bench.machine.epc, bench.machine.bad_vaddr), (RAM + 0x102, RAM + 0x102));
    assert_eq!(Bench::new().pc(3).trap(1).machine.bad_vaddr, 3);
}

#[test]
fn reading_22_branch_in_slot() {
    let mut bench = Bench::with(&[beq(0, 0, 0x3F), bcond(17, 0, 7)]);
    put_words(&mut bench.ram, 0x100, &[addiu(6, 0, 1)]);
    let bench = bench.run(2);
    assert_eq!((bench.machine.pc, bench.machine.next_pc), (RAM + 0x100, RAM + 8 + 28));
    assert_eq!(bench.reg(31), RAM + 4 + 8);
    let plain = Bench::with(&[beq(0, 0, 0x3F), beq(0, 0, 7)]).run(2);
    assert_eq!((plain.machine.pc, plain.machine.next_pc), (RAM + 0x100, RAM + 8 + 28));
    let not_taken = Bench::with(&[beq(0, 0, 0x3F), bne(0, 0, 7)]).run(2);
    assert_eq!((not_taken.machine.pc, not_taken.machine.next_pc), (RAM + 0x100, RAM + 0x104));
}

#[test]
fn reading_23_jump_takes_the_top_of_its_own_pc() {
    let mut bench = Bench::new().entry(0, 0x8FFF_F000, RAM | VALID | GLOBAL);
    bench.machine.status = reference::Status(KERNEL | VM);
    bench.machine.pc = 0x8FFF_FFFC;
    bench.machine.next_pc = 0x4000_0000;
    put_words(&mut bench.ram, 0xFFC, &[j(0x1234)]);
    let bench = bench.run(1);
    assert_eq!((bench.machine.pc, bench.machine.next_pc), (0x4000_0000, 0x9000_1234));
}

#[test]
fn reading_24_sources_are_read_first() {
    let bench = Bench::with(&[jalr(4, 4), NOP]).register(4, RAM + 0x40).run(1);
    assert_eq!((bench.machine.next_pc, bench.reg(4)), (RAM + 0x40, RAM + 8));
    let bench = Bench::with(&[bcond(16, 31, 7), NOP]).register(31, u32::MAX).run(1);
    assert_eq!((bench.machine.next_pc, bench.reg(31)), (RAM + 4 + 28, RAM + 8));
}

#[test]
fn reading_25_jalr_links_in_rd() {
    let bench = Bench::with(&[jalr(0, 4), NOP]).register(4, RAM + 0x40).run(1);
    assert_eq!((bench.reg(0), bench.reg(31), bench.machine.next_pc), (0, 0, RAM + 0x40));
}

#[test]
fn reading_26_code_field_is_ignored() {
    assert_eq!(Bench::with(&[SYSCALL | 0xFFFFF << 6]).trap(1).code(), 8);
    let broke = Bench::with(&[BREAK | 0x12345 << 6]).trap(1);
    assert_eq!((broke.code(), broke.machine.cause), (9, 9 << 2));
}

#[test]
fn reading_27_register_zero_as_a_target() {
    let big = 0x7FFF_FFFF;
    assert_eq!(Bench::with(&[special(32, 4, 4, 0)]).register(4, big).trap(1).code(), 12);
    assert_eq!(Bench::with(&[lw(0, 0, 4)]).register(4, 0x7000_0000).trap(1).code(), 7);
    assert_eq!(Bench::with(&[lw(0, 0, 9), addiu(0, 0, 1)]).run(2).reg(0), 0);
}

#[test]
fn reading_28_divide_by_zero_keeps_hi_and_lo() {
    for function in [26, 27] {
        let mut bench = Bench::with(&[special(function, 4, 0, 0)]).register(4, 5);
        bench.machine.hi = 11;
        bench.machine.lo = 12;
        let bench = bench.run(1);
        assert_eq!((bench.machine.hi, bench.machine.lo), (11, 12));
    }
}
