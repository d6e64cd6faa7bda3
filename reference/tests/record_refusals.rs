//! The refusals of run with records and of take-back from records.

mod common;

use common::asm::*;
use common::dice::Dice;
use common::states::random_bench_with_slots;
use common::*;
use reference::{Answer, IMAGE_BYTES, OLD_IMAGE_BYTES};

/// A length, seldom one of the bad ones, and whether it passes its row.
fn length(dice: &mut Dice, good: usize, bad: &[u32]) -> (usize, bool) {
    if dice.chance(6) {
        (dice.pick(bad) as usize, false)
    } else {
        (good, true)
    }
}

/// What each row of take-back says of a call, lowest first.
const ROWS: [u8; 7] = [1, 3, 4, 5, 7, 8, 10];

#[test]
fn take_back_answers_the_lowest_number() {
    let mut dice = Dice::new(41);
    let mut met = [0u32; 11];
    for _ in 0..4_000 {
        let mut bench = Bench::with(&[NOP, sw(4, 0x100, 9), addiu(4, 0, 7), TLBWR]);
        bench.run_records(4, 0);
        let (ram, ram_fits) = length(&mut dice, 0x2000, &[0, 1, 4_095, 8_196, 16_781_312]);
        let (paper, paper_fits) = length(&mut dice, 32, &[4, 33, 65_544]);
        let (journal, journal_fits) = length(&mut dice, 4 * 512, &[1, 256, 2_049, 16_777_728]);
        let (image_len, image_fits) =
            length(&mut dice, IMAGE_BYTES, &[0, OLD_IMAGE_BYTES as u32, 740, 742]);
        let mut steps = u64::from(dice.below(5));
        let count_fits = !dice.chance(6);
        if !count_fits {
            steps = [5, 6, 1 << 32, u64::MAX][dice.below(4) as usize];
        }
        let broken = dice.chance(6);
        let bad_record = dice.below(4);
        let record_fits = !dice.chance(3);
        if !record_fits {
            bench.record(bad_record)[511] = 1;
        }
        let mut image = bench.image();
        if broken {
            image[4] ^= 1;
        }
        image.resize(image_len, 0);
        let records_fit = record_fits || u64::from(bad_record) >= steps;
        let (index, index_fits) = length(&mut dice, ram / 4_096 * 16, &[0, 16, 31, 48]);
        let rows = [
            ram_fits,
            paper_fits,
            journal_fits,
            image_fits && !broken,
            count_fits,
            records_fit,
            index_fits,
        ];
        let expected = rows.iter().position(|fits| !fits).map_or(0, |row| ROWS[row]);
        bench.ram.resize(ram, 7);
        bench.paper.resize(paper, 7);
        bench.journal.resize(journal, 7);
        bench.index.resize(index, 7);
        let before = (image.clone(), bench.clone());
        let (ram, paper, journal) = (&mut bench.ram, &mut bench.paper, &bench.journal);
        let (index, disks) = (&mut bench.index, lend(&mut bench.disks));
        let answer = reference::take_back(&mut image, ram, paper, journal, index, disks, steps);
        if expected == 0 {
            assert_eq!(answer, Answer::done(0, steps as u32));
            assert_eq!(image == before.0, steps == 0);
        } else {
            assert_eq!(answer, Answer::refused(expected));
            assert_eq!((image, bench), before);
        }
        met[expected as usize] += 1;
    }
    println!("take-back's answers by number {met:?}");
    assert!(ROWS.iter().all(|&row| met[row as usize] >= 100) && met[0] >= 500, "{met:?}");
}

/// The bench of a run that may be refused, with lengths that may not fit.
fn run_bench(dice: &mut Dice) -> Bench {
    let slots = dice.below(4);
    let mut bench = random_bench_with_slots(dice, slots);
    if dice.chance(8) {
        bench.ram.truncate(dice.pick(&[0, 4_095]) as usize);
    }
    if dice.chance(8) {
        bench.execution.truncate(dice.pick(&[0, 5]) as usize);
    }
    if dice.chance(8) {
        bench.paper.push(1);
    }
    if dice.chance(8) {
        bench.journal.push(1);
    }
    if dice.chance(8) {
        bench.machine.random = 0;
    }
    bench.fit_index();
    bench
}

/// The same answers and states as `run`, with records or refused.
#[test]
fn run_with_records_answers_as_run() {
    let mut dice = Dice::new(42);
    let mut met = [0u32; 7];
    for _ in 0..5_000 {
        let before = run_bench(&mut dice);
        let budget = if dice.chance(8) { 1_000_001 } else { u64::from(dice.below(20)) };
        let stop = u64::from(dice.below(2)) << 40;
        let (mut plain, mut recorded) = (before.clone(), before.clone());
        let answer = recorded.run_records(budget, stop);
        assert_eq!(answer, plain.run_with(budget, stop));
        if answer.steps == 0 {
            assert_eq!(recorded, before);
        }
        plain.journal = recorded.journal.clone();
        plain.index = recorded.index.clone();
        assert_eq!(recorded, plain);
        met[answer.number as usize] += 1;
    }
    println!("run's answers by number {met:?}");
    assert!(met.iter().all(|&count| count >= 100), "{met:?}");
}
