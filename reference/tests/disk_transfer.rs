//! What a transfer moves, and what a step sees of it (request L4, its readings 11,
//! 14, 16 to 18).

mod common;

use common::asm::*;
use common::disks::*;
use common::*;
use reference::{Answer, Disk, TWO_MATCHES};

#[test]
fn reading_14_which_word() {
    let data1 = geometry(3, 2, 4);
    for (cylinder, head, sector) in [(0, 0, 0), (0, 0, 3), (0, 1, 0), (2, 1, 3), (1, 0, 2)] {
        let block = ((cylinder * 2 + head) * 4 + sector) as usize;
        for words_left in [1_024, 1_023, 500, 1] {
            let i = 1_024 - words_left as usize;
            let mut bench = Bench::with(&[NOP]).disk(0, data1);
            put_words(&mut bench.ram, 0xFF0 + 4 * i, &[0x4433_2211]);
            bench.machine.disks[0].cylinder = cylinder;
            let reads = bench.clone().moving(0, read(head, sector), 0xFF0, words_left).run(1);
            assert_eq!(reads.ram_word(0xFF0 + 4 * i), disk_word(0, 1_024 * block + i));
            assert_eq!(reads.disks, bench.disks);
            let writes = bench.clone().moving(0, write(head, sector), 0xFF0, words_left).run(1);
            assert_eq!(writes.on_disk(0, 1_024 * block + i), 0x4433_2211);
            // Four bytes, in the order of their places.
            assert_eq!(writes.disks[0][4 * (1_024 * block + i)..][..4], [0x11, 0x22, 0x33, 0x44]);
            assert_eq!(writes.ram, bench.ram);
        }
    }
}

#[test]
fn reading_11_a_block_across_two_frames() {
    let code = [j(RAM), NOP];
    let bench = Bench::with(&code).disk(0, geometry(1, 1, 1)).moving(0, 3, 0x800, 1_024).run(1_024);
    for word in 0..1_024 {
        assert_eq!(bench.ram_word(0x800 + 4 * word), disk_word(0, word));
    }
    assert_eq!((bench.ram_word(0x7FC), bench.ram_word(0x1800)), (0, 0));
}

/// Two disks on one word of RAM: the step's own order is by number.
fn two(first: (usize, u32), second: (usize, u32)) -> Bench {
    let mut bench = Bench::with(&[NOP]).disk(first.0, geometry(1, 1, 1));
    bench = bench.disk(second.0, geometry(1, 1, 1));
    put_words(&mut bench.ram, 0x1000, &[0x5555_5555]);
    bench.moving(first.0, first.1, 0x1000, 1_024).moving(second.0, second.1, 0x1000, 1_024).run(1)
}

#[test]
fn reading_16_two_disks_on_the_same_bytes() {
    // The lower reads, the higher writes what it left.
    let bench = two((0, 3), (1, 4));
    assert_eq!((bench.ram_word(0x1000), bench.on_disk(1, 0)), (disk_word(0, 0), disk_word(0, 0)));
    // The lower writes the word before.
    let bench = two((0, 4), (1, 3));
    assert_eq!((bench.ram_word(0x1000), bench.on_disk(0, 0)), (disk_word(1, 0), 0x5555_5555));
    // Of two reads the higher number's stands, whatever was started first.
    assert_eq!(two((0, 3), (1, 3)).ram_word(0x1000), disk_word(1, 0));
    assert_eq!(two((7, 3), (2, 3)).ram_word(0x1000), disk_word(7, 0));
    // Two writes take the same word.
    let bench = two((3, 4), (6, 4));
    assert_eq!((bench.on_disk(3, 0), bench.on_disk(6, 0)), (0x5555_5555, 0x5555_5555));
}

#[test]
fn reading_17_the_instruction_is_the_moved_word() {
    let mut bench = Bench::with(&[addiu(5, 0, 1)]).disk(0, geometry(1, 1, 1));
    put_words(&mut bench.disks[0], 0, &[addiu(5, 0, 2)]);
    let bench = bench.moving(0, 3, 0, 1_024).run(1);
    assert_eq!((bench.reg(5), bench.ram_word(0)), (2, addiu(5, 0, 2)));
    // Of two disks the higher number's; and one that only writes leaves it.
    let mut bench = Bench::with(&[addiu(5, 0, 1)]).disk(0, geometry(1, 1, 1));
    bench = bench.disk(4, geometry(1, 1, 1)).disk(6, geometry(1, 1, 1));
    put_words(&mut bench.disks[0], 0, &[addiu(5, 0, 2)]);
    put_words(&mut bench.disks[4], 0, &[addiu(5, 0, 3)]);
    let all = bench.moving(0, 3, 0, 1_024).moving(4, 3, 0, 1_024).moving(6, 4, 0, 1_024).run(1);
    assert_eq!((all.reg(5), all.on_disk(6, 0)), (3, addiu(5, 0, 3)));
}

/// A load or store of the word at 0x1000 while a disk moves it.
fn beside(instruction: u32, code: u32) -> Bench {
    let mut bench = Bench::with(&[instruction]).disk(0, geometry(1, 1, 1));
    put_words(&mut bench.disks[0], 0, &[0xDDCC_BBAA]);
    put_words(&mut bench.ram, 0x1000, &[0x4433_2211]);
    bench.register(4, 0x8877_6655).moving(0, code, 0x1000, 1_024).run(1)
}

#[test]
fn reading_17_loads_and_stores_see_the_moved_word() {
    assert_eq!(beside(lw(5, 0x1000, 9), 3).reg(5), 0xDDCC_BBAA);
    assert_eq!(beside(lw(5, 0x1000, 9), 4).reg(5), 0x4433_2211);
    assert_eq!(beside(immediate(0x22, 9, 4, 0x1001), 3).reg(4), 0xBBAA_6655);
    // A store wins; a narrow one is merged with the moved word.
    assert_eq!(beside(sw(4, 0x1000, 9), 3).ram_word(0x1000), 0x8877_6655);
    assert_eq!(beside(immediate(0x28, 9, 4, 0x1001), 3).ram_word(0x1000), 0xDDCC_55AA);
    assert_eq!(beside(immediate(0x2A, 9, 4, 0x1001), 3).ram_word(0x1000), 0xDDCC_8877);
    // A disk write takes the word before the store.
    let bench = beside(sw(4, 0x1000, 9), 4);
    assert_eq!((bench.on_disk(0, 0), bench.ram_word(0x1000)), (0x4433_2211, 0x8877_6655));
}

/// Two entries that match the page at 0x80000000, and a disk about to move a word
/// to RAM's start, where PC is.
fn doubled(in_ram: u32, on_disk: u32) -> Bench {
    let mut bench = Bench::with(&[in_ram]).disk(0, geometry(1, 1, 1));
    put_words(&mut bench.disks[0], 0, &[on_disk]);
    let bench = bench.status(KERNEL | VM).register(5, 0x8000_0000).entry(0, RAM, RAM | 0x700);
    bench
        .entry(1, 0x8000_0000, RAM | 0x700)
        .entry(2, 0x8000_0000, RAM | 0x700)
        .moving(0, 3, 0, 1_024)
}

#[test]
fn reading_18_two_matches_are_decided_on_the_moved_word() {
    let mut bench = doubled(NOP, lw(6, 0, 5));
    let before = bench.clone();
    assert_eq!(bench.run_with(5, 0), Answer::done(TWO_MATCHES, 0));
    // Nothing has moved: no word, no count, no clock.
    assert_eq!(bench, before);
    let mut recorded = before.clone();
    assert_eq!(recorded.run_records(5, 0), Answer::done(TWO_MATCHES, 0));
    assert_eq!(recorded, before);
    // The other way round the load is gone before it is met.
    let mut bench = doubled(lw(6, 0, 5), NOP);
    assert_eq!(bench.run_with(1, 0), Answer::done(1, 1));
    // Interrupt entry of the disk's own end looks at no table.
    let mut bench = doubled(lw(6, 0, 5), lw(6, 0, 5)).moving(0, 3, 0x1000, 1);
    bench.machine.status = reference::Status(KERNEL | VM | 0x801);
    assert_eq!(bench.run_with(1, 1), Answer::done(2, 1));
    assert_eq!(bench.code(), 0);
}

#[test]
fn a_fetch_elsewhere_does_not_see_the_word() {
    // PC in ROM, behind RAM, and one word beside the moved one.
    let moving = |bench: Bench| bench.disk(0, geometry(1, 1, 1)).moving(0, 3, 4, 1_024);
    let rom = moving(Bench::new()).pc(BOOT + 4).run(1);
    assert_eq!(rom.machine.pc, BOOT + 8);
    assert_eq!(moving(Bench::new()).pc(RAM + 0x2000).trap(1).code(), 6);
    assert_eq!(moving(Bench::with(&[addiu(5, 0, 9)])).run(1).reg(5), 9);
}

#[test]
fn a_seek_moves_no_word_and_a_transfer_no_cylinder() {
    let mut bench = Bench::with(&[NOP, NOP]).disk(0, geometry(2, 1, 1));
    bench.machine.disks[0] = Disk {
        status: BUSY,
        command: seek(1),
        data0: RAM,
        ticks_left: 2,
        ..bench.machine.disks[0]
    };
    let after = bench.clone().run(2);
    assert_eq!(
        (after.ram, after.disks, after.machine.disks[0].cylinder),
        (bench.ram, bench.disks, 1)
    );
    let mut bench = Bench::with(&[NOP]).disk(0, geometry(2, 1, 1)).moving(0, 3, 0x1000, 1);
    bench.machine.disks[0].cylinder = 1;
    let bench = bench.run(1);
    assert_eq!((bench.disk_state(0).cylinder, bench.disk_state(0).status), (1, READY));
    assert_eq!(bench.ram_word(0x1FFC), disk_word(0, 2_047));
}
