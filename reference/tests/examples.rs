//! The marked examples of document 01.

mod common;

use common::asm::*;
use common::*;
use reference::Status;

#[test]
fn entry_and_rfe() {
    assert_eq!(Status(0x1140_0003).pushed(), Status(0x1240_000C));
    assert_eq!(Status(0x1040_FF03).pushed(), Status(0x1040_FF0C));
    assert_eq!(Status(0x1240_000C).popped(), Status(0x1140_0003));
    assert_eq!(Status(0x1040_003C).popped(), Status(0x1040_003F));
}

#[test]
fn entry_and_rfe_in_a_step() {
    let entered = Bench::with(&[SYSCALL]).status(0x1040_FF00).trap(1);
    assert_eq!(entered.machine.status, Status(0x1040_FF00));
    assert_eq!(entered.machine.pc, 0x1FC0_0180);
    let popped = Bench::with(&[RFE]).status(0x1240_000C).run(1);
    assert_eq!(popped.machine.status, Status(0x1140_0003));
}

fn hi_lo(function: u32, a: u32, b: u32) -> (u32, u32) {
    let bench = Bench::with(&[special(function, 4, 5, 0)]).register(4, a).register(5, b).run(1);
    (bench.machine.hi, bench.machine.lo)
}

#[test]
fn multiply_and_divide() {
    assert_eq!(hi_lo(24, 0xFFFF_FFFF, 0xFFFF_FFFF), (0, 1));
    assert_eq!(hi_lo(25, 0xFFFF_FFFF, 0xFFFF_FFFF), (0xFFFF_FFFE, 1));
    assert_eq!(hi_lo(26, 7u32.wrapping_neg(), 2), (0xFFFF_FFFF, 0xFFFF_FFFD));
    assert_eq!(hi_lo(26, 0x8000_0000, 0xFFFF_FFFF), (0, 0x8000_0000));
}

#[test]
fn shift_and_compare() {
    let sra = special(3, 0, 4, 6) | 31 << 6;
    assert_eq!(Bench::with(&[sra]).register(4, 0x8000_0000).run(1).reg(6), 0xFFFF_FFFF);
    let sltiu = immediate(11, 4, 6, 0xFFFF);
    assert_eq!(Bench::with(&[sltiu]).register(4, 5).run(1).reg(6), 1);
}

#[test]
fn overflow_keeps_the_target() {
    let bench = Bench::with(&[addi(6, 4, 1)]).register(4, 0x7FFF_FFFF).register(6, 77).trap(1);
    assert_eq!((bench.code(), bench.reg(6)), (12, 77));
}

#[test]
fn unaligned_word() {
    let part = |opcode| {
        let mut bench = Bench::with(&[immediate(opcode, 9, 6, 0x101)]).register(6, 0xAABB_CCDD);
        put_words(&mut bench.ram, 0x100, &[0x4433_2211]);
        bench.run(1).reg(6)
    };
    assert_eq!(part(0x22), 0x2211_CCDD);
    assert_eq!(part(0x26), 0xAA44_3322);
}

#[test]
fn printer_two() {
    assert_eq!(BUS + printer(2), 0x1000_01F0);
    let bench = Bench::with(&[addiu(4, 0, 65), sw(4, 0x1F8, 8)]).run(2);
    assert_eq!(bench.machine.printers[2].data0, 65);
}

#[test]
fn reset_state() {
    let image = reset_image();
    let machine = reference::decode(&image);
    // Length word 737, version 3.
    assert_eq!((image.len(), &image[..5]), (741, &[0, 0, 2, 0xE1, 3][..]));
    assert_eq!((machine.pc, machine.next_pc), (0x1FC0_0000, 0x1FC0_0004));
    assert_eq!((machine.status.0, machine.random), (0x1040_0000, 0xF00));
    assert_eq!((machine.timer, machine.time_scale), (0xFFFF_FFFF, 1));
    assert_eq!((machine.printer_delay, machine.installed), (DELAY, 5));
    assert_eq!(machine.printers.map(|printer| printer.status), [1, 0, 1, 0, 0, 0, 0, 0]);
    let others: u32 = image[5..].iter().map(|byte| byte.count_ones()).sum();
    let named = [machine.pc, machine.next_pc, 0x1040_0000, 0xF00, u32::MAX, 1, DELAY, 5, 1, 1];
    assert_eq!(others, named.iter().map(|word| word.count_ones()).sum());
}
