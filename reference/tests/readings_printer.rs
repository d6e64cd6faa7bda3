//! Readings 53 to 63: printers.

mod common;

use common::asm::*;
use common::*;
use reference::Printer;

/// A store of register 4 to a field of printer 2.
fn store(field: u32) -> u32 {
    sw(4, printer(2) + field, 8)
}

const COMMAND: u32 = 4;
const DATA0: u32 = 8;

#[test]
fn reading_53_the_whole_command_is_compared() {
    for value in [0x102, 3, 0x8000_0000, u32::MAX] {
        let bench = Bench::with(&[store(COMMAND)]).register(4, value).run(1);
        let printer = bench.machine.printers[2];
        assert_eq!((printer.status, printer.command), (2, value));
        assert_eq!((bench.machine.pending, bench.machine.cause), (4, 0x4000));
    }
}

#[test]
fn reading_54_command_in_the_step_of_the_finish() {
    let words = [store(COMMAND), NOP, NOP, store(COMMAND)];
    let bench = Bench::with(&words).register(4, 2).run(4);
    let printer = bench.machine.printers[2];
    assert_eq!((printer.status, printer.ticks_left, printer.paper_count), (3, DELAY, 1));
    assert_eq!((bench.machine.pending, bench.machine.cause), (0, 0));
}

#[test]
fn reading_55_all_printers_finish_in_one_step() {
    let mut bench = Bench::new();
    bench.machine.installed = 255;
    for (number, printer) in bench.machine.printers.iter_mut().enumerate() {
        let data0 = 0x100 + 65 + number as u32;
        *printer = Printer { status: 3, command: 2, data0, ticks_left: 1, paper_count: 1 };
    }
    let bench = bench.run(1);
    assert_eq!(bench.machine.pending, 255);
    for number in 0..8 {
        assert_eq!(bench.paper[number * 4 + 1], 65 + number as u8);
    }
    assert_eq!(bench.paper.iter().filter(|&&byte| byte != 0).count(), 8);
}

#[test]
fn reading_56_the_printers_eighth() {
    let words = [store(DATA0), addiu(4, 0, 2), store(COMMAND), NOP, NOP, NOP];
    let bench = Bench::with(&words).register(4, 0x1234).run(6);
    let mut paper = vec![0; 32];
    paper[8] = 0x34;
    assert_eq!(bench.paper, paper);
}

#[test]
fn reading_57_paper_of_length_zero() {
    let mut bench = Bench::with(&[store(COMMAND), NOP, NOP, NOP]).register(4, 2);
    bench.paper.clear();
    let bench = bench.run(4);
    let printer = bench.machine.printers[2];
    assert_eq!((printer.status, printer.paper_count, bench.machine.pending), (4, 0, 4));
}

#[test]
fn reading_58_a_full_eighth_keeps_all_else() {
    let mut bench = Bench::with(&[store(COMMAND), NOP, NOP, NOP]).register(4, 2);
    bench.machine.printers[2].paper_count = 4;
    bench.machine.printers[2].data0 = 99;
    let bench = bench.run(4);
    let expected = Printer { status: 4, command: 2, data0: 99, ticks_left: 0, paper_count: 4 };
    assert_eq!(bench.machine.printers[2], expected);
    assert_eq!(bench.paper, vec![0; 32]);
}

#[test]
fn reading_59_ack() {
    for (status, pending) in [(1, 0), (2, 4), (4, 4), (4, 0)] {
        let mut bench = Bench::with(&[store(COMMAND)]).register(4, 1);
        bench.machine.printers[2].status = status;
        bench.machine.printers[2].paper_count = 3;
        bench.machine.pending = pending;
        bench.machine.cause = if pending == 0 { 0 } else { 0x4000 };
        let bench = bench.run(1);
        let expected = Printer { status: 1, command: 1, data0: 0, ticks_left: 0, paper_count: 3 };
        assert_eq!(bench.machine.printers[2], expected);
        assert_eq!((bench.machine.pending, bench.machine.cause), (0, 0));
    }
}

#[test]
fn reading_60_writes_that_are_lost() {
    let words = [sw(0, printer(2) + 4, 8), store(COMMAND), store(DATA0)];
    let bench = Bench::with(&words).register(4, 1).run(3);
    let expected = Printer { status: 3, command: 0, data0: 0, ticks_left: 1, paper_count: 0 };
    assert_eq!(bench.machine.printers[2], expected);
    let words = [store(DATA0), store(0), store(12), lw(6, printer(2) + 12, 8)];
    let bench = Bench::with(&words).register(4, 7).register(6, 1).run(4);
    assert_eq!((bench.machine.printers[2].status, bench.reg(6)), (1, 0));
}

#[test]
fn reading_61_finishes_exactly_delay_steps_after() {
    for delay in [1, 2, 5] {
        let mut bench = Bench::with(&[store(COMMAND)]).register(4, 2);
        bench.machine.printer_delay = delay;
        let bench = bench.run(1);
        assert_eq!(bench.machine.printers[2].ticks_left, delay);
        let bench = bench.run(u64::from(delay) - 1);
        assert_eq!((bench.machine.printers[2].status, bench.machine.pending), (3, 0));
        let bench = bench.run(1);
        assert_eq!((bench.machine.printers[2].status, bench.machine.pending), (1, 4));
    }
}

#[test]
fn reading_62_ip_six_follows_the_map() {
    let mut bench = Bench::with(&[store(COMMAND), sw(4, printer(0) + 4, 8)]).register(4, 1);
    bench.machine.pending = 5;
    bench.machine.cause = 0x4000;
    let bench = bench.run(1);
    assert_eq!((bench.machine.pending, bench.machine.cause), (1, 0x4000));
    let bench = bench.run(1);
    assert_eq!((bench.machine.pending, bench.machine.cause), (0, 0));
}

#[test]
fn reading_63_read_only_words() {
    for offset in (0..0x50).step_by(4) {
        let before = Bench::with(&[NOP]).register(4, 0xA5A5_A5A5).run(1);
        let after = Bench::with(&[sw(4, offset, 8)]).register(4, 0xA5A5_A5A5).run(1);
        if offset == TIMER {
            assert_eq!(after.machine.timer, 0xA5A5_A5A5);
        } else {
            assert_eq!(after.machine, before.machine);
        }
    }
}

#[test]
fn reading_92_command_and_data_read_back() {
    let words = [store(DATA0), store(COMMAND), lw(5, printer(2) + 8, 8), lw(6, printer(2) + 4, 8)];
    let bench = Bench::with(&words).register(4, 0xABCD).run(4);
    assert_eq!((bench.reg(5), bench.reg(6)), (0xABCD, 0xABCD));
    let words = [lw(7, printer(2), 8)];
    let mut again = bench.pc(RAM);
    put_words(&mut again.ram, 0, &words);
    assert_eq!(again.run(1).reg(7), 2);
}

#[test]
fn reset_command_keeps_the_count() {
    let mut bench = Bench::with(&[store(COMMAND), NOP, NOP, NOP]);
    bench.machine.printers[2].paper_count = 2;
    bench.machine.printers[2].status = 4;
    let bench = bench.run(4);
    let expected = Printer { status: 1, command: 0, data0: 0, ticks_left: 0, paper_count: 2 };
    assert_eq!((bench.machine.printers[2], bench.machine.pending), (expected, 4));
}
