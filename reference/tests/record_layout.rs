//! Each clause of "well formed", broken alone.

mod common;

use common::asm::*;
use common::*;
use reference::{Answer, Printer};

/// The number of a word of a record, and what is put there.
type Change = (usize, u32);

/// Printers 0 and 2 are installed, 0 idle and 2 busy; the newest step stored
/// a word, the two before it did nothing else. Paper has four bytes an eighth.
fn three_steps() -> Bench {
    let mut bench = Bench::with(&[NOP, NOP, sw(4, 0x100, 9)]).register(4, 0x1234_5678);
    bench.machine.printers[2] =
        Printer { status: 3, command: 2, data0: 65, ticks_left: 3, paper_count: 1 };
    bench.machine.printer_delay = 9;
    assert_eq!(bench.run_records(2, 1), Answer::done(1, 2));
    // Nothing finishes before the records that are spoiled below.
    assert_eq!(bench.machine.printers[2].ticks_left, 1);
    bench.machine.printers[2].ticks_left = 9;
    assert_eq!(bench.run_records(1, 1), Answer::done(1, 1));
    bench
}

/// Changes the record of that age and takes that one and the newer ones back.
fn number_at(mut bench: Bench, age: u32, changes: &[Change]) -> u8 {
    for &(word, value) in changes {
        put_words(bench.record(age), word * 4, &[value]);
    }
    bench.take_back(u64::from(age) + 1).number
}

/// Expects the answer for the newest record and for one behind others.
fn expect(number: u8, changes: &[Change]) {
    for age in 0..3 {
        // The older records start as a step that overwrote nothing else.
        let mut plain = vec![(59, 0), (60, 0), (61, 0)];
        plain.extend(changes);
        assert_eq!(number_at(three_steps(), age, &plain), number, "{age} {changes:?}");
    }
}

fn all_bad(table: &[&[Change]]) {
    table.iter().for_each(|changes| expect(8, changes));
    println!("{} ways, each answered 8", table.len());
}

fn all_fine(table: &[&[Change]]) {
    table.iter().for_each(|changes| expect(0, changes));
    println!("{} neighbours, each done", table.len());
}

#[test]
fn words_100_to_127() {
    expect(0, &[]);
    for word in 100..128 {
        all_bad(&[&[(word, 1)], &[(word, 1 << 8)], &[(word, 1 << 31)], &[(word, u32::MAX)]]);
    }
}

#[test]
fn the_slot_flag_and_the_branch_address() {
    all_bad(&[
        &[(12, 2)],
        &[(12, 1 << 31)],
        &[(12, 0x100), (13, 1)],
        &[(12, u32::MAX), (13, u32::MAX)],
        &[(13, 1)],
        &[(13, 1 << 31)],
    ]);
    all_fine(&[&[(12, 1)], &[(12, 1), (13, 3)], &[(12, 1), (13, u32::MAX)]]);
    let mut bench = three_steps();
    put_words(bench.record(0), 12 * 4, &[1, 0xBBBB_000D]);
    assert_eq!(bench.take_back(1), Answer::done(0, 1));
    assert_eq!((bench.machine.slot_flag, bench.machine.branch_address), (1, 0xBBBB_000D));
}

#[test]
fn the_kind_and_its_words() {
    all_bad(&[
        &[(59, 5)],
        &[(59, 4)],
        &[(59, 0x100)],
        &[(59, u32::MAX)],
        &[(60, 1)],
        &[(61, 1)],
        &[(62, 1)],
        &[(59, 1), (60, 0)],
        &[(59, 1), (60, 32)],
        &[(59, 1), (60, 0x101)],
        &[(59, 1), (60, 5), (62, 1)],
        &[(59, 2), (60, 16)],
        &[(59, 2), (60, u32::MAX)],
        &[(59, 3), (60, 1)],
        &[(59, 3), (60, 2)],
        &[(59, 3), (60, 0x103)],
        &[(59, 3), (60, 4), (62, 0x1_0000)],
        &[(59, 3), (60, 4), (62, u32::MAX)],
    ]);
    all_fine(&[
        &[(59, 1), (60, 1)],
        &[(59, 1), (60, 31), (61, u32::MAX)],
        &[(59, 2)],
        &[(59, 2), (60, 15), (61, 0xFFFF_FFC0), (62, 0xFFFF_FF00)],
        &[(59, 3)],
        &[(59, 3), (60, 0x1FFC), (61, u32::MAX)],
        &[(59, 3), (60, 4), (62, 1)],
        &[(59, 3), (60, 4), (62, 0xFFFF)],
    ]);
}

#[test]
fn ram_places() {
    all_bad(&[&[(59, 3), (60, 0x2000)], &[(59, 3), (60, 0xFFFF_FFFC)]]);
    // RAM lent shorter than at the run (reading 80).
    let mut shorter = three_steps();
    put_words(shorter.record(0), 60 * 4, &[0x1000]);
    assert_eq!(shorter.clone().take_back(1).number, 0);
    shorter.ram.truncate(0x1000);
    assert_eq!(shorter.take_back(1).number, 8);
}

#[test]
fn the_map_of_printed_bytes() {
    all_bad(&[
        &[(16, 0x100)],
        &[(16, 1 << 31)],
        &[(17, 1)],
        &[(18, 1 << 24)],
        &[(16, 0xFE), (17, 1)],
        &[(16, 0x7F), (18, 1 << 24)],
    ]);
    all_fine(&[&[(16, 0xFF)], &[(16, 0xFF), (17, u32::MAX), (18, u32::MAX)], &[(16, 4)]]);
}

#[test]
fn paper_places() {
    // Printer 7 with its count at the end of the paper; one less is inside.
    let with_printer_7 = |count: u32| {
        let mut bench = three_steps();
        bench.machine.installed = 0x85;
        bench.machine.printers[7].status = 1;
        number_at(bench, 0, &[(16, 0x80), (54, 1), (58, count)])
    };
    assert_eq!((with_printer_7(3), with_printer_7(4)), (0, 8));
    // Within the paper is enough: it is the next printer's first byte here.
    let mut bench = three_steps();
    put_words(bench.record(0), 16 * 4, &[4, 0x55 << 16]);
    put_words(bench.record(0), 33 * 4, &[4]);
    assert_eq!(bench.take_back(1).number, 0);
    assert_eq!(bench.paper[12], 0x55);
    // Two bytes for one place: the lower printer's stands.
    let mut bench = three_steps();
    put_words(bench.record(0), 16 * 4, &[4 + 8, 0x6655 << 16]);
    put_words(bench.record(0), 33 * 4, &[4]);
    assert_eq!(bench.take_back(1).number, 0);
    assert_eq!(bench.paper[12], 0x55);
    // Without paper no printer has a place.
    let mut bench = three_steps();
    bench.paper.clear();
    bench.machine.printers[2].paper_count = 0;
    assert_eq!(number_at(bench.clone(), 0, &[(33, 0)]), 0);
    assert_eq!(number_at(bench, 0, &[(33, 0), (16, 1)]), 8);
}

#[test]
fn the_image_given_back_keeps_the_rules() {
    all_bad(&[
        &[(4, 1)],
        &[(4, 0x4000_0000)],
        &[(5, 0)],
        &[(5, 0x1000)],
        &[(5, 0x0101)],
        &[(5, 0x8000_0100)],
        &[(6, 1)],
        &[(7, 1)],
        &[(9, 0x40)],
        &[(9, 0x0800_0000)],
        &[(10, 1)],
        &[(10, 13 << 2)],
        &[(10, 0x0800)],
        &[(10, 0x1000)],
        &[(10, 0x2000)],
        &[(10, 0x8000)],
        &[(10, 0x4000)],
        &[(15, 1)],
        &[(15, 2), (10, 0x4000)],
        &[(15, 4), (10, 0x4000)],
        &[(59, 2), (61, 1)],
        &[(59, 2), (62, 1)],
        &[(19, 0)],
        &[(19, 5)],
        &[(22, 1)],
        &[(23, 5)],
        &[(24, 1)],
        &[(25, 1)],
        &[(26, 1)],
        &[(27, 1)],
        &[(28, 1)],
        &[(30, 1)],
        &[(32, 0)],
        &[(32, 10)],
        &[(33, 5)],
        &[(29, 1)],
    ]);
    all_fine(&[
        &[(0, 1), (1, 2), (2, 3), (3, 5), (8, 1), (11, 3), (14, 9)],
        &[(4, 0x8000_3F00), (5, 0x100), (6, 0xFFFF_FFC0), (7, 0xFFFF_FF00)],
        &[(9, 0x1740_FF3F), (10, 0xB000_0730)],
        &[(10, 0x4000), (15, 1)],
        &[(19, 4), (20, 99), (21, 99), (23, 4)],
        &[(29, 3), (30, 0), (32, 9), (33, 4)],
        &[(29, 2), (32, 0)],
    ]);
}

/// Reading 79: an older record that would mend the image does not help.
#[test]
fn each_record_is_judged_in_turn() {
    let mut bench = three_steps();
    put_words(bench.record(1), 9 * 4, &[0x40]);
    let before = bench.clone();
    assert_eq!(bench.take_back(3).number, 8);
    assert_eq!(bench, before);
    assert_eq!(bench.take_back(1).number, 0);
}

/// Reading 89: a record of another step is taken back as its bytes say.
#[test]
fn a_record_of_another_step_is_well_formed() {
    let mut bench = three_steps();
    bench.machine.registers[7] = 7;
    put_words(bench.record(0), 59 * 4, &[1, 7, 0xAAAA]);
    let clock = bench.machine.clock;
    assert_eq!(bench.take_back(1), Answer::done(0, 1));
    assert_eq!((bench.reg(7), bench.machine.clock), (0xAAAA, clock - 1));
    assert_eq!(bench.ram_word(0x100), 0x1234_5678);
}
