//! The disks' registers and commands (request L4, its readings 1 to 4, 9, 10 and 12).

mod common;

use common::asm::*;
use common::disks::*;
use common::*;
use reference::Disk;

#[test]
fn reading_1_registers_and_maps() {
    let mut bench = Bench::with(&[
        lw(4, disk(2), 8),
        lw(5, disk(2) + COMMAND, 8),
        lw(6, disk(2) + DATA0, 8),
        lw(7, disk(2) + DATA1, 8),
        lw(10, 0x28, 8),
        lw(11, 0x3C, 8),
        lw(12, disk(1) + DATA1, 8),
    ])
    .disk(2, geometry(2, 1, 1))
    .disk(7, geometry(1, 1, 1));
    bench.machine.disks[2] =
        Disk { status: 6, command: 0xAB, data0: 0xCD, cylinder: 1, ..bench.machine.disks[2] };
    bench.machine.disks_pending = 0x84;
    bench.machine.cause = 0x800;
    let bench = bench.run(7);
    assert_eq!([4, 5, 6, 7].map(|number| bench.reg(number)), [6, 0xAB, 0xCD, geometry(2, 1, 1)]);
    assert_eq!([10, 11, 12].map(|number| bench.reg(number)), [0x84, 0x84, 0]);
    assert_eq!(0x1000_0050 + 0x10 * 3, BUS + disk(3));
}

#[test]
fn readings_2_and_3_fields_of_command_and_what_they_leave() {
    // SEEKCYL takes bits 8 to 23; bits 24 to 31 are no field, and stay.
    let bench = Bench::storing(0, COMMAND, 0xAB00_0102).disk(0, geometry(2, 1, 1)).run(1);
    assert_eq!((bench.disk_state(0).status, bench.disk_state(0).command), (BUSY, 0xAB00_0102));
    let bench = Bench::storing(0, COMMAND, 0x0001_0002).disk(0, geometry(257, 1, 1)).run(1);
    assert_eq!(bench.disk_state(0).status, BUSY);
    let bench = bench.run(DELAY.into());
    assert_eq!(bench.disk_state(0).cylinder, 256);
    // RESET and ACK ignore bits 8 to 31, unknown codes too.
    for (command, status) in [(0xFFFF_FF00, BUSY), (0xFFFF_FF01, 1), (0xFFFF_FF05, 2), (0x100, 3)] {
        let bench = Bench::storing(3, COMMAND, command).disk(3, geometry(1, 1, 1)).run(1);
        assert_eq!((bench.disk_state(3).status, bench.disk_state(3).command), (status, command));
    }
    // HEADNUM bits 16 to 23, SECTNUM bits 8 to 15.
    for (command, status) in [
        (read(1, 2), BUSY),
        (read(2, 2), 5),
        (read(1, 3), 5),
        (write(1, 2), BUSY),
        (write(2, 0), 6),
        (write(0, 3), 6),
        (0xFF00_0000 | read(1, 2), BUSY),
    ] {
        let mut bench = Bench::storing(0, COMMAND, command).disk(0, geometry(1, 2, 3));
        bench.machine.disks[0].data0 = RAM;
        assert_eq!(bench.run(1).disk_state(0).status, status, "{command:#x}");
    }
}

#[test]
fn reading_4_a_count_of_0_is_0() {
    for data1 in [geometry(0, 1, 1), geometry(1, 0, 1), geometry(1, 1, 0), 0] {
        let seeks = if data1 >> 16 == 0 { 4 } else { BUSY };
        for (command, status) in [(seek(0), seeks), (read(0, 0), 5), (write(0, 0), 6), (0, BUSY)] {
            let mut bench = Bench::storing(0, COMMAND, command).disk(0, data1);
            bench.machine.disks[0].data0 = RAM;
            assert!(bench.disks[0].is_empty());
            assert_eq!(bench.run(1).disk_state(0).status, status, "{data1:#x} {command:#x}");
        }
    }
}

/// Whether a command ends at once, and with pending on.
fn at_once(bench: Bench, status: u32) {
    let busy = status == BUSY;
    let bench = bench.run(1);
    assert_eq!(bench.disk_state(0).status, status);
    let pending = !busy && status != READY;
    assert_eq!((bench.machine.disks_pending, bench.ip_3()), (u32::from(pending), pending));
    let command = bench.disk_state(0).command & 0xFF;
    let words = if busy && command >= 3 { 1_024 } else { 0 };
    let ticks = if busy && command < 3 { DELAY } else { 0 };
    assert_eq!((bench.disk_state(0).words_left, bench.disk_state(0).ticks_left), (words, ticks));
}

#[test]
fn reading_9_each_command_to_an_idle_disk() {
    let with = |command: u32, data0: u32, cylinder: u32| {
        let mut bench = Bench::storing(0, COMMAND, command).disk(0, geometry(2, 2, 2));
        bench.machine.disks[0].data0 = data0;
        bench.machine.disks[0].cylinder = cylinder;
        bench
    };
    at_once(with(RESET, 7, 1), BUSY);
    at_once(with(ACK, 7, 1), READY);
    at_once(with(seek(1), 7, 0), BUSY);
    at_once(with(seek(2), RAM, 1), 4);
    at_once(with(seek(0xFFFF), RAM, 1), 4);
    // The block comes before DATA0.
    at_once(with(read(2, 0), 1, 0), 5);
    at_once(with(write(0, 2), 1, 0), 6);
    at_once(with(read(1, 1), RAM + 2, 1), 7);
    at_once(with(write(1, 1), RAM + 1, 1), 7);
    at_once(with(read(1, 1), RAM, 1), BUSY);
    at_once(with(write(1, 1), RAM + 4, 0), BUSY);
    for command in [5, 6, 0x80, 0xFF] {
        at_once(with(command, RAM, 0), 2);
    }
}

#[test]
fn reading_9_data0_at_the_edges_of_ram() {
    // Two frames: a block may start at any word of the first and at the second's.
    for (data0, status) in [
        (RAM - 4, 7),
        (RAM, BUSY),
        (RAM + 4, BUSY),
        (RAM + 0xFFC, BUSY),
        (RAM + 0x1000, BUSY),
        (RAM + 0x1004, 7),
        (RAM + 0x1FFC, 7),
        (RAM + 0x2000, 7),
        (0, 7),
        (BUS, 7),
        (BOOT, 7),
        (0xFFFF_F000, 7),
        (0xFFFF_FFFC, 7),
        (RAM + 1, 7),
        (RAM + 2, 7),
        (RAM + 3, 7),
    ] {
        for command in [read(0, 0), write(0, 0)] {
            let mut bench = Bench::storing(0, COMMAND, command).disk(0, geometry(1, 1, 1));
            bench.machine.disks[0].data0 = data0;
            at_once(bench, status);
        }
    }
}

#[test]
fn reading_9_a_command_clears_pending_and_only_its_own() {
    for command in [RESET, ACK, seek(0), 9] {
        let mut bench = Bench::storing(0, COMMAND, command)
            .disk(0, geometry(1, 1, 1))
            .disk(5, geometry(1, 1, 1));
        bench.machine.disks_pending = 0x21;
        bench.machine.cause = 0x800;
        let bench = bench.run(1);
        let own = u32::from(command == 9);
        assert_eq!((bench.machine.disks_pending, bench.ip_3()), (0x20 | own, true));
    }
    let mut last = Bench::storing(0, COMMAND, ACK).disk(0, geometry(1, 1, 1));
    last.machine.disks_pending = 1;
    last.machine.cause = 0x800;
    let last = last.run(1);
    assert_eq!((last.machine.disks_pending, last.ip_3()), (0, false));
}

#[test]
fn reading_9_an_ack_ends_every_error() {
    for status in [2, 4, 5, 6, 7] {
        let mut bench = Bench::storing(0, COMMAND, ACK).disk(0, geometry(1, 1, 1));
        bench.machine.disks[0].status = status;
        bench.machine.disks[0].cylinder = 0;
        assert_eq!(bench.run(1).disk_state(0).status, READY);
    }
}

#[test]
fn reading_12_writes_that_do_nothing() {
    // A busy disk takes neither COMMAND nor DATA0, and clears nothing.
    for field in [0, COMMAND, DATA0, DATA1] {
        let mut bench = Bench::storing(0, field, ACK).disk(0, geometry(1, 1, 1));
        bench.machine.disks[0] =
            Disk { status: BUSY, command: 0, ticks_left: 3, ..bench.machine.disks[0] };
        let expected = Disk { ticks_left: 2, ..*bench.disk_state(0) };
        assert_eq!(*bench.run(1).disk_state(0), expected);
    }
    // An idle one's STATUS and DATA1 stay; DATA0 is stored as written.
    for (field, data0) in [(0, 0), (DATA1, 0), (DATA0, 0x1234_5677)] {
        let bench = Bench::storing(0, field, 0x1234_5677).disk(0, geometry(1, 1, 1));
        let expected = Disk { data0, ..*bench.disk_state(0) };
        assert_eq!(*bench.run(1).disk_state(0), expected);
    }
    // A disk that is not there reads 0 and ignores writes.
    for field in [0, COMMAND, DATA0, DATA1] {
        let bench = Bench::with(&[sw(4, disk(6) + field, 8), lw(5, disk(6) + field, 8)])
            .register(4, 0)
            .register(5, 9)
            .disk(0, geometry(1, 1, 1))
            .run(2);
        assert_eq!((*bench.disk_state(6), bench.reg(5)), (Disk::default(), 0));
        assert_eq!(bench.machine.disks_pending, 0);
    }
}

#[test]
fn line_3_and_the_printers_do_not_meet() {
    let mut bench = Bench::with(&[sw(4, disk(0) + COMMAND, 8), sw(4, printer(0) + COMMAND, 8)])
        .register(4, 9)
        .disk(0, geometry(1, 1, 1));
    bench = bench.run(1);
    assert_eq!((bench.machine.cause & 0x4800, bench.machine.pending), (0x800, 0));
    bench = bench.run(1);
    assert_eq!((bench.machine.cause & 0x4800, bench.machine.disks_pending), (0x4800, 1));
}
