//! What the record of a step holds of the disks, and what well formed asks of it
//! (request L4, its readings 21 to 25).

mod common;

use common::asm::*;
use common::disks::*;
use common::*;
use reference::{Answer, Disk};

type Change = (usize, u32);

/// Disk n's first word, and its distance as a word with those beside it.
const fn first(number: usize) -> usize {
    64 + 4 * number
}

/// Takes one step, compares the words from the kind on, and takes it back.
fn holds(mut bench: Bench, words: &[Change]) {
    let before = bench.clone();
    bench.journal.fill(0xC5);
    assert_eq!(bench.run_records(1, 0).steps, 1);
    let record = bench.record(0).to_vec();
    for number in 59..128 {
        let expected = words.iter().find(|(place, _)| *place == number).map_or(0, |(_, it)| *it);
        let found = u32::from_le_bytes(record[4 * number..][..4].try_into().unwrap());
        assert_eq!(found, expected, "word {number}");
    }
    assert_eq!(bench.take_back(1), Answer::done(0, 1));
    bench.journal = before.journal.clone();
    assert_eq!(bench, before);
}

fn nop() -> Bench {
    Bench::with(&[NOP]).disk(0, geometry(3, 1, 1)).disk(6, geometry(2, 1, 1))
}

#[test]
fn disks_that_rest_are_0() {
    let mut bench = nop();
    holds(bench.clone(), &[]);
    bench.machine.disks_pending = 0x40;
    bench.machine.cause = 0x800;
    bench.machine.disks[6] =
        Disk { status: 5, command: 9, data0: 7, cylinder: 1, ..bench.machine.disks[6] };
    holds(bench, &[(63, 0x40)]);
}

#[test]
fn a_seek_and_a_reset_moved_no_word() {
    for (command, ticks_left) in [(seek(1), 1), (seek(1), 3), (RESET, 1), (RESET, 2)] {
        let mut bench = nop();
        bench.machine.disks[6] =
            Disk { status: BUSY, command, ticks_left, cylinder: 1, ..bench.machine.disks[6] };
        holds(bench, &[(first(6), 0x1_0001), (first(6) + 1, ticks_left)]);
    }
}

#[test]
fn a_read_and_a_write_moved_a_word() {
    for words_left in [1_024, 700, 1] {
        let place = 0x1000 + 4 * (1_024 - words_left);
        let mut bench = nop();
        put_words(&mut bench.ram, place as usize, &[0x4433_2211]);
        bench.machine.disks[0].cylinder = 2;
        let left = (first(0) + 1, words_left << 16);
        let reads =
            [(first(0), 0x2_0002), left, (first(0) + 2, place), (first(0) + 3, 0x4433_2211)];
        holds(bench.clone().moving(0, 3, 0x1000, words_left), &reads);
        let old = disk_word(0, 2_048 + 1_024 - words_left as usize);
        let writes = [(first(0), 0x2_0003), left, (first(0) + 3, old)];
        holds(bench.moving(0, 4, 0x1000, words_left), &writes);
    }
}

#[test]
fn a_register_that_a_store_landed_on() {
    let at = |number: u32, field: u32| disk(number) + field;
    for (field, old) in [(COMMAND, 0x1234), (DATA0, 0x5678)] {
        let mut bench = Bench::with(&[sw(4, at(6, field), 8)]).disk(6, geometry(2, 1, 1));
        bench.machine.disks[6] =
            Disk { status: 5, command: 0x1234, data0: 0x5678, ..bench.machine.disks[6] };
        let kind = [(59, 4), (60, at(6, field)), (61, old)];
        // Taken by an idle disk, whatever it makes of it.
        for value in [0, 1, seek(1), 0x99, read(0, 0)] {
            let taken = bench.clone().register(4, value);
            holds(taken, &[&kind[..], &[(62, 5)]].concat());
        }
        // Not taken by a busy one.
        let mut busy = bench.clone();
        busy.machine.disks[6] =
            Disk { status: BUSY, command: 0x1200, ticks_left: 2, ..busy.machine.disks[6] };
        let old = if field == COMMAND { 0x1200 } else { old };
        let work = [(first(6), 1), (first(6) + 1, 2)];
        holds(
            busy.clone(),
            &[&work[..], &[(59, 4), (60, at(6, field)), (61, old), (62, 3)]].concat(),
        );
        // Taken by one that finishes in this very step: STATUS is that before it.
        busy.machine.disks[6].ticks_left = 1;
        let work = [(first(6), 1), (first(6) + 1, 1)];
        let kind = [(59, 4), (60, at(6, field)), (61, old), (62, 3)];
        holds(busy.register(4, seek(1)), &[&work[..], &kind].concat());
    }
    // STATUS and DATA1 are no such words, nor those of printers.
    for field in [0, DATA1] {
        holds(Bench::storing(0, field, 9).disk(0, geometry(1, 1, 1)), &[]);
    }
    holds(Bench::with(&[sw(4, printer(0) + 4, 8)]), &[]);
}

/// Kind 0, with other disks there or none, and also beside one that is at work.
#[test]
fn registers_of_disks_that_are_not_there() {
    for number in 0..8 {
        for field in [COMMAND, DATA0] {
            for value in [0, 1, seek(1), 9, read(0, 0), RAM + 0x1000] {
                let alone = Bench::storing(number, field, value);
                holds(alone.clone(), &[]);
                let next = (number as usize + 1) % 8;
                let beside = alone.disk(next, geometry(2, 1, 1));
                holds(beside.clone(), &[]);
                let work = [(first(next), 3), (first(next) + 1, 9 << 16)];
                let old = (first(next) + 3, disk_word(next, 1_024 - 9));
                holds(beside.moving(next, 4, 0x1000, 9), &[&work[..], &[old]].concat());
            }
        }
    }
}

/// Reading 22: whatever meets on one word, all of them save the one before the step.
#[test]
fn one_word_saved_several_times() {
    let mut bench = Bench::with(&[sw(4, 0x1000, 9)]).register(4, 0x9999_9999);
    for number in [1, 4] {
        bench = bench.disk(number, geometry(1, 1, 1)).moving(number, 3, 0x1000, 1_024);
    }
    put_words(&mut bench.ram, 0x1000, &[0x4433_2211]);
    let mut words = vec![(59, 3), (60, 0x1000), (61, 0x4433_2211)];
    for number in [1, 4] {
        let at = first(number);
        words.extend([(at, 2), (at + 1, 1_024 << 16), (at + 2, 0x1000), (at + 3, 0x4433_2211)]);
    }
    holds(bench, &words);
}

#[test]
fn distances_of_several_places() {
    // A step that changed frame 0, then one with disks 2 and 3 in both frames.
    let code = [sw(4, 0x800, 9), NOP, sw(4, 0x900, 9)];
    let mut bench = Bench::with(&code).register(4, 0x77);
    for number in [2, 3] {
        bench = bench.disk(number, geometry(1, 1, 1));
    }
    assert_eq!(bench.run_records(2, 0).steps, 2);
    let mut bench = bench.moving(2, 3, 0x0F00, 1_024).moving(3, 3, 0x1000, 1_024);
    assert_eq!(bench.run_records(1, 0).steps, 1);
    let record = bench.record(0).to_vec();
    // Two steps back for both places in frame 0, none for frame 1.
    assert_eq!(record[248..252], [2, 0, 0, 0]);
    assert_eq!(record[384..400], [0, 0, 0, 0, 2, 0, 0, 0, 0, 0, 0, 0, 0, 0, 0, 0]);
}

/// Two steps with disks 0 reading and 3 writing at work, and disk 5 at rest.
fn two_steps() -> Bench {
    let mut bench = Bench::with(&[NOP, NOP]).disk(5, geometry(2, 1, 1));
    for (number, code) in [(0, 3), (3, 4)] {
        bench = bench.disk(number, geometry(2, 1, 1));
        bench = bench.moving(number, code, 0x1000, 1_024);
    }
    assert_eq!(bench.run_records(2, 0), Answer::done(1, 2));
    bench
}

fn number_at(mut bench: Bench, age: u32, changes: &[Change]) -> u8 {
    for &(word, value) in changes {
        put_words(bench.record(age), word * 4, &[value]);
    }
    bench.take_back(u64::from(age) + 1).number
}

fn expect(number: u8, table: &[&[Change]]) {
    for changes in table {
        for age in [0, 1] {
            assert_eq!(number_at(two_steps(), age, changes), number, "{age} {changes:?}");
        }
    }
    println!("{} ways, each answered {number}", table.len());
}

#[test]
fn the_layout_of_a_disk_at_rest() {
    let at = first(5);
    expect(0, &[&[]]);
    expect(
        8,
        &[
            &[(at, 4)],
            &[(at, 0x8000)],
            &[(at, 0x1_0000)],
            &[(at + 1, 1)],
            &[(at + 1, 0x1_0000)],
            &[(at + 2, 4)],
            &[(at + 3, 1)],
            &[(98, 1 << 16)],
            &[(98, 0xFFFF << 16)],
        ],
    );
    // At work by its record, with a COMMAND that is a seek to cylinder 0 or RESET.
    expect(0, &[&[(at, 1), (at + 1, 1)], &[(at, 0x1_0001), (at + 1, DELAY)]]);
    expect(
        8,
        &[
            &[(at, 1), (at + 1, 0)],
            &[(at, 1), (at + 1, DELAY + 1)],
            &[(at, 1), (at + 1, 0x1_0001)],
            &[(at, 0x2_0001), (at + 1, 1)],
            &[(at, 1), (at + 1, 1), (at + 2, 4)],
            &[(at, 1), (at + 1, 1), (at + 3, 1)],
            &[(at, 1), (at + 1, 1), (98, 1 << 16)],
        ],
    );
}

#[test]
fn the_layout_of_a_disk_that_moved_a_word() {
    let (reads, writes) = (first(0), first(3));
    expect(
        8,
        &[
            &[(reads + 2, 1)],
            &[(reads + 2, 0x1002)],
            &[(reads + 2, 0x2000)],
            &[(reads + 2, 0xFFFF_FFFC)],
            &[(reads, 0x2_0002)],
            &[(reads + 1, 0)],
            &[(reads + 1, 1_025 << 16)],
            &[(reads + 1, 1_024 << 16 | 1)],
            &[(writes + 2, 4)],
            &[(writes, 4)],
            &[(97, 1 << 16)],
            &[(reads, 1)],
            &[(reads, 1), (reads + 2, 0), (96, 0), (reads + 3, 1)],
        ],
    );
    expect(
        0,
        &[
            &[(reads + 2, 0)],
            &[(reads + 2, 0x1FFC), (96, 0xFFFF)],
            &[(reads + 3, u32::MAX)],
            &[(reads, 0x1_0002)],
            &[(writes, 0x1_0003), (writes + 1, 1 << 16)],
            // No other reason counts: a disk that reads may have moved nothing,
            // or may have written a word on its own disk,
            &[(reads, 1), (reads + 2, 0), (reads + 3, 0), (96, 0)],
            &[(reads, 3), (reads + 2, 0), (96, 0)],
            // and one that writes may have read.
            &[(writes, 2), (writes + 2, 0x1800), (97, 7 << 16)],
        ],
    );
}

#[test]
fn registers_of_disks_in_a_record() {
    let kind =
        |offset: u32, old: u32, status: u32| [(59, 4), (60, offset), (61, old), (62, status)];
    for number in 0..8 {
        for field in 0..16 {
            let offset = disk(number) + field;
            let right = field == COMMAND || field == DATA0;
            // Disk 5 is idle; the others are 0 or at work.
            let status = [3, 0, 0, 3, 0, 1, 0, 0][number as usize];
            let old = if [0, 3].contains(&number) {
                if field == DATA0 {
                    RAM + 0x1000
                } else {
                    3
                }
            } else {
                0
            };
            let answer = number_at(two_steps(), 0, &kind(offset, old, status));
            assert_eq!(answer, if right { 0 } else { 8 }, "{offset:#x}");
        }
    }
    for offset in [0, 0x20, 0x4C, 0xD4, 0x1D4, 0x1000_0054, u32::MAX] {
        assert_eq!(number_at(two_steps(), 0, &kind(offset, 0, 0)), 8);
    }
    // What it gives back has to keep the rules.
    let at_5 = disk(5) + COMMAND;
    for (old, status, number) in [(77, 7, 0), (u32::MAX, 2, 0), (0, 0, 8), (0, 8, 8), (0, 3, 8)] {
        assert_eq!(number_at(two_steps(), 0, &kind(at_5, old, status)), number);
    }
    // At work again by its own words, behind the kind.
    let work = [(first(5), 1), (first(5) + 1, 1)];
    assert_eq!(number_at(two_steps(), 0, &[&kind(at_5, seek(1), 9)[..], &work].concat()), 0);
    // A register of a disk that is not there stays 0.
    assert_eq!(number_at(two_steps(), 0, &kind(disk(1) + DATA0, 1, 0)), 8);
}

#[test]
fn the_disks_pending_map() {
    expect(0, &[&[(63, 0x20), (10, 0x800)]]);
    expect(8, &[&[(63, 0x20)], &[(10, 0x800)], &[(63, 1), (10, 0x800)], &[(63, 2), (10, 0x800)]]);
}

/// Reading 25: by the length lent now, also where it is one of row 13.
#[test]
fn disk_places_in_the_buffer_lent() {
    let lent = |length: usize| {
        let mut bench = two_steps();
        bench.disks[3].resize(length, 0);
        bench.take_back(2).number
    };
    assert_eq!((lent(2 * 4_096), lent(0), lent(7), lent(8), lent(4_096)), (0, 8, 8, 13, 13));
    // The cylinder and the words left of the record say where.
    let at = first(3);
    let with = |words: u32| number_at(two_steps(), 0, &[(at, 0x1_0003), (at + 1, words << 16)]);
    assert_eq!((with(1_024), with(1)), (0, 0));
    let mut shorter = two_steps();
    shorter.disks[3].truncate(4_096 + 8);
    assert_eq!(number_at(shorter.clone(), 0, &[(at, 0x1_0003), (at + 1, 1_023 << 16)]), 13);
    assert_eq!(number_at(shorter, 0, &[(at, 0x1_0003), (at + 1, 1_022 << 16)]), 8);
}

/// Store first, then disks 7 to 0: so the lowest disk's bytes stand.
#[test]
fn order_of_giving_back() {
    let mut bench = two_steps();
    let record = bench.record(0);
    put_words(record, 59 * 4, &[3, 0x1800, 0x5707_0001, 0]);
    for (number, bytes) in [(0, 0xD15C_0000), (3, 0xD15C_0003)] {
        let at = 4 * first(number);
        put_words(record, at, &[2, 1_023 << 16, 0x1800, bytes]);
    }
    assert_eq!(bench.take_back(1), Answer::done(0, 1));
    assert_eq!(bench.ram_word(0x1800), 0xD15C_0000);
    let mut bench = two_steps();
    put_words(bench.record(0), 59 * 4, &[3, 0x1004, 0x5707_0001, 0]);
    assert_eq!(bench.take_back(1), Answer::done(0, 1));
    // Disk 0's place is that word too.
    assert_eq!(bench.ram_word(0x1004), 0);
}
