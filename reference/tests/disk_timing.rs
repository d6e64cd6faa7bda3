//! When disks act (request L4, its readings 13, 15 and 16).

mod common;

use common::asm::*;
use common::disks::*;
use common::*;
use reference::Disk;

#[test]
fn reading_15_a_seek_and_a_reset_take_the_delay() {
    for delay in [1, 2, 3, 7] {
        for (command, cylinder) in [(seek(2), 2), (RESET, 0)] {
            let mut bench = Bench::storing(1, COMMAND, command).disk(1, geometry(3, 1, 1));
            bench.machine.printer_delay = delay;
            bench.machine.disks[1].cylinder = 1;
            let mut bench = bench.run(1);
            for step in 1..delay {
                bench = bench.run(1);
                let at_work = Disk {
                    status: BUSY,
                    ticks_left: delay - step,
                    cylinder: 1,
                    ..*bench.disk_state(1)
                };
                // The old cylinder is kept until the end.
                assert_eq!(*bench.disk_state(1), at_work);
                assert_eq!(bench.machine.disks_pending, 0);
            }
            let bench = bench.run(1);
            let ready = Disk { status: READY, ticks_left: 0, cylinder, ..*bench.disk_state(1) };
            assert_eq!(*bench.disk_state(1), ready);
            assert_eq!((bench.machine.disks_pending, bench.ip_3()), (2, true));
        }
    }
}

#[test]
fn reading_15_the_first_word_at_once_and_the_last_after_1024() {
    let mut bench = Bench::storing(0, COMMAND, read(0, 0)).disk(0, geometry(1, 1, 1));
    // Round and round behind the command.
    put_words(&mut bench.ram, 4, &[j(RAM + 4), NOP]);
    bench.machine.disks[0].data0 = RAM + 0x1000;
    let mut bench = bench.run(1);
    assert_eq!(bench.ram_word(0x1000), 0);
    for moved in 1..=1_024u32 {
        bench = bench.run(1);
        let place = 0x1000 + 4 * (moved as usize - 1);
        assert_eq!(bench.ram_word(place), disk_word(0, moved as usize - 1));
        assert!(moved == 1_024 || bench.ram_word(place + 4) == 0);
        assert_eq!(bench.disk_state(0).words_left, 1_024 - moved);
        let done = moved == 1_024;
        assert_eq!(bench.disk_state(0).status, if done { READY } else { BUSY });
        assert_eq!((bench.machine.disks_pending != 0, bench.ip_3()), (done, done));
    }
    // DATA0 has not moved on.
    assert_eq!(bench.disk_state(0).data0, RAM + 0x1000);
}

#[test]
fn the_last_word_interrupts_in_its_own_step() {
    let moving = Bench::with(&[NOP, NOP]).disk(0, geometry(1, 1, 1)).moving(0, 3, 0x1000, 2);
    let mut bench = moving.line_3().run(1);
    assert_eq!(bench.run_with(1, 1).reason, 2);
    assert_eq!((bench.code(), bench.machine.epc, bench.machine.pc), (0, RAM + 4, 0x80));
    assert_eq!(bench.ram_word(0x1FFC), disk_word(0, 1_023));
    // A seek likewise, and not where line 3 is masked.
    let mut seeking = Bench::with(&[NOP]).disk(0, geometry(1, 1, 1));
    seeking.machine.disks[0] =
        Disk { status: BUSY, command: 2, ticks_left: 1, ..seeking.machine.disks[0] };
    let masked = seeking.clone().status(KERNEL | 0xF701).run(1);
    assert!(masked.ip_3());
    assert_eq!(seeking.line_3().trap(1).code(), 0);
}

#[test]
fn a_command_in_the_step_in_which_a_disk_finishes() {
    let mut bench = Bench::storing(0, COMMAND, seek(1)).disk(0, geometry(2, 1, 1));
    bench.machine.disks[0] =
        Disk { status: BUSY, command: 0, ticks_left: 1, ..bench.machine.disks[0] };
    let bench = bench.run(1);
    let taken = Disk { status: BUSY, command: seek(1), ticks_left: DELAY, ..*bench.disk_state(0) };
    assert_eq!((*bench.disk_state(0), bench.machine.disks_pending), (taken, 0));
}

#[test]
fn a_disk_goes_on_through_exceptions_and_interrupts() {
    let bench = Bench::with(&[SYSCALL]).disk(0, geometry(1, 1, 1)).moving(0, 3, 0x1000, 1_024);
    let bench = bench.trap(1);
    assert_eq!((bench.disk_state(0).words_left, bench.ram_word(0x1000)), (1_023, disk_word(0, 0)));
    let mut bench = Bench::with(&[NOP]).disk(0, geometry(1, 1, 1)).moving(0, 3, 0x1000, 1_024);
    bench.machine.cause = 0x100;
    let bench = bench.status(KERNEL | 0x101).trap(1);
    assert_eq!(bench.disk_state(0).words_left, 1_023);
}

#[test]
fn all_eight_disks_with_all_printers() {
    let mut bench = Bench::with(&[NOP; 4]);
    for number in 0..8 {
        bench = bench.disk(number, geometry(1, 1, 1));
        bench = bench.moving(number, 3, 0x1000, 1_024 - 8 * number as u32);
        bench.machine.printers[number] =
            reference::Printer { status: 3, command: 2, data0: 65, ticks_left: 2, paper_count: 0 };
    }
    bench.machine.installed = 0xFF;
    let bench = bench.run(2);
    assert_eq!((bench.machine.pending, bench.machine.disks_pending), (0xFF, 0));
    for number in 0..8 {
        let first = 8 * number;
        for word in [first, first + 1] {
            assert_eq!(bench.ram_word(0x1000 + 4 * word), disk_word(number, word));
        }
        assert_eq!(bench.paper[4 * number], 65);
    }
}
