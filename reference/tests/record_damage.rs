//! Damaged records: 8 or done, whatever the bytes are.

mod common;

use common::dice::Dice;
use common::states::random_bench_with_slots;
use common::*;

/// Spoils the record in one of several ways.
fn damage(dice: &mut Dice, record: &mut [u8], way: usize) {
    match way {
        0 => record[dice.below(512) as usize] ^= 1 << dice.below(8),
        1 => record[dice.below(512) as usize] = dice.word() as u8,
        2 => put_words(record, 4 * dice.below(128) as usize, &[dice.word()]),
        3 => put_words(record, 4 * dice.below(128) as usize, &[dice.below(40)]),
        4 => {
            for _ in 0..dice.below(4) {
                record[dice.pick(&[64, 236]) as usize + dice.below(12) as usize] =
                    dice.pick(&[0, 1, 2, 3, 4, 8, 128]) as u8;
            }
        }
        5 => record.rotate_left(4 + 4 * dice.below(127) as usize),
        _ => record.iter_mut().for_each(|byte| *byte = dice.word() as u8),
    }
}

const WAYS: usize = 7;

/// Ways that leave most of the record as it was, so that some stay well formed.
const SMALL_WAYS: usize = 5;

/// How the same take-back goes step by step: each record is judged on the
/// machine that undoing the newer ones gives (reading 79), so the whole is
/// refused exactly where one of the parts is.
fn step_by_step(mut bench: Bench, steps: u32) -> (Bench, u32) {
    for done in 0..steps {
        if bench.take_back(1).number != 0 {
            return (bench, done);
        }
    }
    (bench, steps)
}

#[test]
fn damaged_records_answer_8_or_are_done() {
    let mut dice = Dice::new(31);
    let (mut done, mut refused, mut last_only) = ([0u32; WAYS], [0u32; WAYS], 0);
    for round in 0..30_000 {
        let way = round % WAYS;
        let slots = dice.pick(&[1, 2, 3, 17]);
        let mut bench = random_bench_with_slots(&mut dice, slots);
        if bench.run_records(u64::from(1 + dice.below(30)), 0).steps == 0 {
            continue;
        }
        let steps = 1 + dice.below(bench.machine.on_hand);
        // The oldest of those asked for half of the time.
        let age = if dice.chance(2) { steps - 1 } else { dice.below(steps) };
        damage(&mut dice, bench.record(age), way);
        let (parts, well_formed) = step_by_step(bench.clone(), steps);
        // `take_back` on the bench tests that a refusal has changed nothing.
        match bench.take_back(steps.into()).number {
            0 => {
                assert_eq!(well_formed, steps);
                assert_eq!(bench, parts);
                done[way] += 1;
            }
            8 => {
                assert!(well_formed < steps);
                last_only += u32::from(well_formed == steps - 1 && steps > 1);
                refused[way] += 1;
            }
            number => panic!("answered {number}"),
        }
    }
    println!("done by way {done:?}, refused {refused:?}, {last_only} for the last of several");
    assert!(refused.iter().all(|&count| count >= 200), "{refused:?}");
    assert!(done[..SMALL_WAYS].iter().all(|&count| count >= 200), "{done:?}");
    assert_eq!(done[WAYS - 1], 0);
    assert!(last_only >= 2_000);
}

/// Steps on hand that were never run: the bytes there are judged (reading 84).
#[test]
fn journals_that_no_run_has_written() {
    let mut dice = Dice::new(32);
    let (mut done, mut refused) = (0, 0);
    for _ in 0..4_000 {
        let slots = dice.pick(&[1, 2, 3, 17]);
        let mut bench = random_bench_with_slots(&mut dice, slots);
        let mut other = random_bench_with_slots(&mut dice, slots);
        other.run_records(40, 0);
        if dice.chance(2) {
            bench.journal = other.journal;
            bench.machine.installed = other.machine.installed;
            bench.machine.printers = other.machine.printers;
            bench.machine.pending = other.machine.pending;
            bench.machine.cause = other.machine.cause;
            bench.machine.printer_delay = other.machine.printer_delay;
            bench.paper = other.paper;
            bench.ram.truncate(4096);
        }
        bench.machine.on_hand = 1 + dice.below(slots);
        let steps = 1 + dice.below(bench.machine.on_hand);
        match bench.take_back(steps.into()).number {
            0 => done += 1,
            8 => refused += 1,
            number => panic!("answered {number}"),
        }
    }
    println!("{done} done, {refused} refused");
    assert!(done >= 300 && refused >= 2_000);
}
