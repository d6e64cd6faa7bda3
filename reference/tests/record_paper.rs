//! Paper bytes of records that no step has written: where they are put, and
//! which of two on one place stands.

mod common;

use common::asm::*;
use common::*;
use reference::Answer;

/// Four bytes for each printer.
const EIGHTH: u32 = 4;

/// One step on 32 bytes of paper with all printers installed; its record then
/// says that these printers had written: number, paper count, old byte.
fn with_bytes(bytes: &[(usize, u32, u8)]) -> Bench {
    let mut bench = Bench::with(&[NOP]);
    bench.machine.installed = 0xFF;
    for printer in &mut bench.machine.printers {
        printer.status = 1;
    }
    bench.paper = (0x80..0xA0).collect();
    assert_eq!(bench.run_records(1, 0), Answer::done(1, 1));
    let record = bench.record(0);
    for &(number, count, byte) in bytes {
        record[64] |= 1 << number;
        record[68 + number] = byte;
        put_words(record, 4 * (19 + 5 * number + 4), &[count]);
    }
    bench
}

/// The paper after a take-back that has to be done.
fn taken_back(mut bench: Bench) -> Vec<u8> {
    assert_eq!(bench.take_back(1), Answer::done(0, 1));
    bench.paper
}

fn paper_but_for(changes: &[(usize, u8)]) -> Vec<u8> {
    let mut paper: Vec<u8> = (0x80..0xA0).collect();
    for &(place, byte) in changes {
        paper[place] = byte;
    }
    paper
}

#[test]
fn a_count_at_the_eighths_end_is_the_next_printers_place() {
    for number in 0..7 {
        let paper = taken_back(with_bytes(&[(number, EIGHTH, 0x11)]));
        assert_eq!(paper, paper_but_for(&[(4 * (number + 1), 0x11)]), "printer {number}");
    }
}

#[test]
fn behind_the_last_eighth_is_outside() {
    let mut bench = with_bytes(&[(7, EIGHTH, 0x11)]);
    assert_eq!(bench.take_back(1), Answer::refused(8));
    assert_eq!(taken_back(with_bytes(&[(7, EIGHTH - 1, 0x11)])), paper_but_for(&[(31, 0x11)]));
}

/// Inside the paper, but the count breaks a rule.
#[test]
fn a_count_over_the_eighth_is_refused_by_the_rules() {
    let mut bench = with_bytes(&[(0, EIGHTH + 1, 0x11)]);
    assert_eq!(bench.take_back(1), Answer::refused(8));
}

#[test]
fn of_two_on_one_place_the_lower_printer_stands() {
    for number in 0..7 {
        let both = [(number, EIGHTH, 0x11), (number + 1, 0, 0x22)];
        let paper = taken_back(with_bytes(&both));
        assert_eq!(paper, paper_but_for(&[(4 * (number + 1), 0x11)]), "printer {number}");
    }
}

#[test]
fn four_pairs_of_all_eight_printers() {
    let count = |number| if number % 2 == 0 { EIGHTH } else { 0 };
    let bytes: Vec<_> = (0..8).map(|number| (number, count(number), 0x10 + number as u8)).collect();
    let expected = [(4, 0x10), (12, 0x12), (20, 0x14), (28, 0x16)];
    assert_eq!(taken_back(with_bytes(&bytes)), paper_but_for(&expected));
}

/// A printer that is not installed has count 0, and a place for all that.
#[test]
fn the_bit_of_a_printer_that_is_not_installed() {
    let mut bench = with_bytes(&[]);
    bench.machine.installed = 0xF7;
    bench.machine.printers[3] = Default::default();
    let record = bench.record(0);
    put_words(record, 4 * (19 + 5 * 3), &[0; 5]);
    record[64] = 8;
    record[71] = 0x33;
    assert_eq!(taken_back(bench), paper_but_for(&[(12, 0x33)]));
}

/// No paper, no place: even the first is outside.
#[test]
fn without_paper_every_bit_is_refused() {
    for number in 0..8 {
        let mut bench = with_bytes(&[(number, 0, 0)]);
        bench.paper.clear();
        assert_eq!(bench.take_back(1), Answer::refused(8), "printer {number}");
    }
}
