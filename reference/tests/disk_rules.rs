//! Rules and refusals of disks (request L4, its readings 5, 7, 8, 19, 20 and 31).

mod common;

use common::asm::*;
use common::disks::*;
use common::*;
use reference::{
    decode, keeps_rules, last_write, reset, Answer, Disk, Machine, IMAGE_BYTES, LAST_WRITE_BYTES,
};

/// A bench with disks 0 (3 cylinders, 2 heads, 4 sectors) and 5.
fn with_disks() -> Bench {
    Bench::with(&[NOP]).disk(0, geometry(3, 2, 4)).disk(5, geometry(1, 1, 1))
}

/// Whether a change leaves the rules kept; run answers 5 if not.
fn keeps(change: impl Fn(&mut Machine)) -> bool {
    let mut bench = with_disks();
    change(&mut bench.machine);
    let lengths = (bench.ram.len(), bench.paper.len(), bench.journal.len());
    let kept = keeps_rules(&bench.image(), lengths.0, lengths.1, lengths.2);
    // 13 where the change is of the geometry.
    assert_eq!(bench.run_with(0, 0).number == 5, !kept);
    kept
}

fn with(disk: Disk) -> bool {
    keeps(move |machine| machine.disks[0] = Disk { data1: geometry(3, 2, 4), ..disk })
}

#[test]
fn reading_7_maps_and_line_3() {
    for (pending, cause, kept) in [
        (0, 0, true),
        (0, 0x800, false),
        (1, 0, false),
        (1, 0x800, true),
        (0x21, 0x800, true),
        (2, 0x800, false),
        (0x101, 0x800, false),
    ] {
        let kept_now = keeps(|machine| {
            machine.disks_pending = pending;
            machine.cause = cause;
        });
        assert_eq!(kept_now, kept, "{pending:#x} {cause:#x}");
    }
    assert!(!keeps(|machine| machine.disks_installed = 0x121));
    for line in [4, 5, 7] {
        assert!(!keeps(|machine| machine.cause = 0x100 << line));
    }
}

#[test]
fn reading_7_a_disk_that_is_not_there() {
    for field in 0..7 {
        assert!(!keeps(|machine| {
            let disk = &mut machine.disks[1];
            let words = [
                &mut disk.status,
                &mut disk.command,
                &mut disk.data0,
                &mut disk.data1,
                &mut disk.ticks_left,
                &mut disk.words_left,
                &mut disk.cylinder,
            ];
            *words.into_iter().nth(field).unwrap() = 1;
        }));
    }
}

#[test]
fn reading_7_an_idle_disk() {
    let idle = Disk { status: READY, command: 0xFFFF_FFFF, data0: 0x1235, ..Disk::default() };
    for status in 0..10 {
        let kept = (1..=7).contains(&status) && status != BUSY;
        assert_eq!(with(Disk { status, ..idle }), kept, "{status}");
    }
    for cylinder in 0..5 {
        assert_eq!(with(Disk { cylinder, ..idle }), cylinder < 3);
    }
    assert!(!with(Disk { ticks_left: 1, ..idle }) && !with(Disk { words_left: 1, ..idle }));
    // Without cylinders only 0 is allowed.
    for (cylinder, kept) in [(0, true), (1, false)] {
        let none = keeps(|machine| {
            machine.disks[0] = Disk { status: 1, data1: 0x0204, cylinder, ..Disk::default() }
        });
        assert_eq!(none, kept);
    }
}

#[test]
fn reading_7_a_busy_seek_or_reset() {
    let busy = Disk { status: BUSY, ticks_left: 2, ..Disk::default() };
    for ticks_left in 0..6 {
        for command in [0, seek(2)] {
            let kept = (1..=DELAY).contains(&ticks_left);
            assert_eq!(with(Disk { ticks_left, command, ..busy }), kept);
        }
    }
    for command in [1, 5, 0xFF, 3, 4] {
        assert!(!with(Disk { command, data0: RAM, ..busy }));
    }
    assert!(!with(Disk { words_left: 1, ..busy }));
    // Reading 8: a busy seek has a cylinder to go to.
    assert!(with(Disk { command: seek(2), ..busy }) && !with(Disk { command: seek(3), ..busy }));
    assert!(with(Disk { command: 0xFFFF_FF00, ..busy }));
    assert!(!keeps(|machine| {
        machine.disks[5] = Disk { data1: geometry(1, 1, 1), ..busy };
        machine.disks_pending = 0x20;
        machine.cause = 0x800;
    }));
}

#[test]
fn readings_7_and_8_a_busy_transfer() {
    for code in [3, 4] {
        let busy =
            Disk { status: BUSY, command: code, data0: RAM, words_left: 9, ..Disk::default() };
        for (words_left, kept) in [(0, false), (1, true), (1_024, true), (1_025, false)] {
            assert_eq!(with(Disk { words_left, ..busy }), kept);
        }
        assert!(!with(Disk { ticks_left: 1, ..busy }));
        for (head, sector, kept) in [(1, 3, true), (2, 3, false), (1, 4, false), (255, 255, false)]
        {
            assert_eq!(with(Disk { command: code | head << 16 | sector << 8, ..busy }), kept);
        }
        for cylinder in 0..4 {
            assert_eq!(with(Disk { cylinder, ..busy }), cylinder < 3);
        }
        for (place, kept) in [(0, true), (4, true), (2, false), (0x1000, true), (0x1004, false)] {
            assert_eq!(with(Disk { data0: RAM + place, ..busy }), kept);
        }
        for data0 in [0, RAM - 4, RAM - 0x1000, BOOT, 0xFFFF_F000, 0xFFFF_FFFC] {
            assert!(!with(Disk { data0, ..busy }));
        }
    }
}

/// Reading 10: RAM lent shorter in the middle of a transfer is row 5.
#[test]
fn ram_lent_shorter_in_the_middle() {
    let mut bench = with_disks().moving(5, 3, 0x1000, 9);
    assert_eq!(bench.run_with(0, 0).number, 0);
    bench.ram.truncate(0x1000);
    assert_eq!(bench.run_with(0, 0).number, 5);
    assert_eq!(bench.take_back(0).number, 5);
    bench.machine.disks[5].data0 = RAM;
    assert_eq!(bench.run_with(0, 0).number, 0);
}

#[test]
fn reading_5_parameters_of_reset() {
    let wide = 1 << 32;
    let one = |place: usize, value: u64| {
        let mut geometry = [0; 8];
        geometry[place] = value;
        geometry
    };
    for (disks, geometry, number) in [
        (0, [0; 8], 0),
        (0xFF, [0; 8], 0),
        (0xFF, [0xFFFF_FFFF; 8], 0),
        (0x100, [0; 8], 6),
        (wide, [0; 8], 6),
        (0x80, one(7, 0x0001_0101), 0),
        (0x80, one(7, wide), 6),
        (0x80, one(6, 1), 6),
        (0, one(0, 1), 6),
        (0x7F, one(7, 1), 6),
    ] {
        let (mut image, mut index) = (vec![0xEE; IMAGE_BYTES], [0xEE; 32]);
        let answer = reset(&mut image, &mut index, 1, 1, 0, disks, geometry);
        assert_eq!(answer, Answer { number, reason: 0, steps: 0 }, "{disks:#x}");
        assert_eq!(image == vec![0xEE; IMAGE_BYTES], number != 0);
        if number != 0 {
            continue;
        }
        assert!(keeps_rules(&image, 4_096, 0, 0));
        let machine = decode(&image);
        assert_eq!((machine.disks_installed, machine.disks_pending), (disks as u32, 0));
        for (place, disk) in machine.disks.iter().enumerate() {
            let there = disks >> place & 1 != 0;
            let data1 = geometry[place] as u32;
            let expected = Disk { status: u32::from(there), data1, ..Disk::default() };
            assert_eq!(*disk, expected);
        }
    }
}

#[test]
fn reading_31_rows_of_reset() {
    let (mut image, mut index) = (vec![3; IMAGE_BYTES - 1], [3; 17]);
    assert_eq!(reset(&mut image, &mut index, 1, 1, 0, 256, [0; 8]).number, 5);
    let (mut image, mut index) = (vec![3; IMAGE_BYTES], [3; 17]);
    assert_eq!(reset(&mut image, &mut index, 1, 1, 0, 256, [0; 8]).number, 6);
    assert_eq!(reset(&mut image, &mut index, 1, 1, 0, 255, [0; 8]).number, 10);
}

fn ask(bench: &Bench, address: u64, told: &mut [u8]) -> Answer {
    let Bench { ram, paper, journal, index, .. } = bench;
    let disks = bench.lent_disks();
    last_write(&bench.image(), ram, paper, journal, index, disks, address, told)
}

#[test]
fn reading_19_row_13_of_each_call() {
    let told = &mut [0; LAST_WRITE_BYTES];
    for number in 0..8 {
        for length in [0, 1, 4_095, 4_096, 4_097, 24 * 4_096 - 1, 24 * 4_096, 24 * 4_096 + 4_096] {
            let mut bench = with_disks();
            bench.disks[number].resize(length, 0x77);
            let right = [24 * 4_096, 0, 0, 0, 0, 4_096, 0, 0][number];
            let expected = if length == right { 0 } else { 13 };
            let before = bench.clone();
            assert_eq!(ask(&bench, RAM.into(), told).number, expected);
            assert_eq!(bench.take_back(0).number, expected);
            assert_eq!(bench.run_records(0, 0).number, expected);
            assert_eq!(bench.run_with(0, 0).number, expected);
            assert_eq!(bench, before);
        }
    }
}

#[test]
fn reading_31_every_other_row_comes_before_13() {
    let mut bench = with_disks();
    bench.run_records(1, 0);
    bench.disks[3].push(0);
    let told = &mut [0; LAST_WRITE_BYTES];
    assert_eq!(bench.clone().run_with(1_000_001, 0).number, 6);
    assert_eq!(bench.clone().take_back(2).number, 7);
    assert_eq!(bench.clone().take_back(1).number, 13);
    assert_eq!(ask(&bench, u64::from(RAM) + 1, told).number, 11);
    assert_eq!(ask(&bench, RAM.into(), &mut told[1..]).number, 12);
    assert_eq!(ask(&bench, RAM.into(), told).number, 13);
    bench.record(0)[511] = 1;
    assert_eq!(bench.clone().take_back(1).number, 8);
    assert_eq!(ask(&bench, 1, told).number, 8);
    bench.machine.random = 0;
    assert_eq!(bench.clone().run_with(0, 0).number, 5);
    let index_lent = |bench: &Bench, index: usize| {
        let mut after = bench.clone();
        let (mut image, disks) = (after.image(), lend(&mut after.disks));
        let (ram, paper) = (&mut after.ram, &mut after.paper);
        let index = &mut vec![0; index];
        reference::take_back(&mut image, ram, paper, &after.journal, index, disks, 0).number
    };
    bench.machine.random = 0x100;
    assert_eq!((index_lent(&bench, 31), index_lent(&bench, 32)), (10, 13));
}

#[test]
fn reading_20_slots_of_512() {
    let mut bench = with_disks();
    for (journal, number) in [(512, 0), (256, 4), (768, 4), (1_024, 0), (1 << 24, 0)] {
        bench.journal.resize(journal, 0);
        bench.machine.on_hand = 0;
        assert_eq!(bench.run_with(0, 0).number, number);
        bench.machine.on_hand = journal as u32 / 512;
        bench.machine.next_slot = (journal as u32 / 512).saturating_sub(1);
        assert_eq!(bench.run_with(0, 0).number, number);
        bench.machine.on_hand += 1;
        assert_eq!(bench.run_with(0, 0).number, if number == 0 { 5 } else { 4 });
        bench.machine.on_hand = 0;
        bench.machine.next_slot = journal as u32 / 512;
        assert_eq!(bench.run_with(0, 0).number, if number == 0 { 5 } else { 4 });
        bench.machine.next_slot = 0;
    }
}
