//! Random machines: what holds for every run, and counts of what was met.

mod common;

use common::dice::Dice;
use common::states::random_bench;
use common::*;
use reference::{
    no_disks, Answer, BUDGET_SPENT, EXCEPTION, IMAGE_BYTES, OLD_IMAGE_BYTES, TWO_MATCHES,
};

const MACHINES: u32 = 4_000;
const STEPS: u32 = 60;

/// Steps one by one; the images of a run are tested in `Bench::run_with`.
#[test]
fn images_keep_the_rules_and_every_exception_is_met() {
    let mut dice = Dice::new(1);
    let mut by_code = [0u32; 13];
    let (mut misses, mut printed, mut full, mut finished, mut plain) = (0, 0, 0, 0, 0);
    let mut halted = 0;
    for _ in 0..MACHINES {
        let mut bench = random_bench(&mut dice);
        for _ in 0..STEPS {
            let before = bench.clone();
            let answer = bench.run_with(1, 1);
            if answer == Answer::done(TWO_MATCHES, 0) {
                assert_eq!(bench, before);
                halted += 1;
                break;
            }
            assert_eq!((answer.number, answer.steps), (0, 1));
            if answer.reason == EXCEPTION {
                by_code[bench.code() as usize] += 1;
                misses += u32::from(bench.machine.pc & 0xFF == 0);
                assert_eq!(bench.machine.registers, before.machine.registers);
                assert_eq!(bench.ram, before.ram);
            } else {
                plain += 1;
            }
            for (now, then) in bench.machine.printers.iter().zip(&before.machine.printers) {
                finished += u32::from(then.ticks_left == 1);
                printed += now.paper_count - then.paper_count;
                full += u32::from(now.status == 4 && then.status == 3);
            }
        }
    }
    println!("exceptions by code {by_code:?}");
    println!("{misses} misses, {plain} steps without exception");
    println!("{halted} machines stopped before two matches");
    println!("{finished} printers finished, {printed} bytes printed, {full} eighths full");
    assert!(by_code.iter().all(|&count| count >= 20), "{by_code:?}");
    assert!(misses >= 100 && plain >= 50_000 && halted >= 200);
    assert!(finished >= 1_000 && printed >= 100 && full >= 100);
}

#[test]
fn budget_n_is_n_times_budget_one() {
    let mut dice = Dice::new(2);
    let mut stopped_early = 0;
    for _ in 0..MACHINES {
        let start = random_bench(&mut dice);
        let budget = dice.below(STEPS) + 1;
        let stop = u64::from(dice.below(2));
        let mut whole = start.clone();
        let answer = whole.run_with(budget.into(), stop);
        let mut parts = start;
        let mut steps = 0;
        let reason = loop {
            if steps == budget {
                break BUDGET_SPENT;
            }
            let part = parts.run_with(1, stop);
            if part == Answer::done(TWO_MATCHES, 0) {
                break TWO_MATCHES;
            }
            assert_eq!((part.number, part.steps), (0, 1));
            steps += 1;
            if part.reason == EXCEPTION {
                break EXCEPTION;
            }
        };
        assert_eq!(answer, Answer::done(reason, steps));
        assert_eq!(whole, parts);
        stopped_early += u32::from(steps < budget);
    }
    println!("{stopped_early} of {MACHINES} runs stopped before the budget");
    assert!((200..MACHINES).contains(&stopped_early));
}

/// Lengths with whether they pass their row.
const RAMS: [(usize, bool); 4] = [(0, false), (4_095, false), (4_096, true), (8_192, true)];
const ROMS: [(usize, bool); 5] = [(0, false), (4, true), (5, false), (512, true), (65_540, false)];
const PAPERS: [(usize, bool); 4] = [(0, true), (12, false), (64, true), (65_544, false)];
const JOURNALS: [(usize, bool); 4] = [(0, true), (256, false), (512, true), (1_024, true)];
const IMAGES: [(usize, bool); 3] =
    [(OLD_IMAGE_BYTES, false), (IMAGE_BYTES, true), (IMAGE_BYTES, true)];
const BUDGETS: [(u64, bool); 4] = [(0, true), (5, true), (1_000_001, false), (1 << 40, false)];

/// One of the table, seldom a bad one, so that every row gets its turn.
fn choose<T: Copy>(dice: &mut Dice, table: &[(T, bool)]) -> (T, bool) {
    loop {
        let choice = table[dice.below(table.len() as u32) as usize];
        if choice.1 || dice.chance(3) {
            return choice;
        }
    }
}

#[test]
fn the_lowest_refusal_is_answered() {
    let mut dice = Dice::new(3);
    let mut met = [0u32; 7];
    for _ in 0..20_000 {
        let (ram, ram_fits) = choose(&mut dice, &RAMS);
        let (execution, execution_fits) = choose(&mut dice, &ROMS);
        let (bootstrap, bootstrap_fits) = choose(&mut dice, &ROMS);
        let (paper, paper_fits) = choose(&mut dice, &PAPERS);
        let (journal, journal_fits) = choose(&mut dice, &JOURNALS);
        let (image_len, image_fits) = choose(&mut dice, &IMAGES);
        let (budget, budget_fits) = choose(&mut dice, &BUDGETS);
        let mut image = reset_image();
        image.resize(image_len, 0);
        let spoiled = dice.chance(8);
        if spoiled {
            image[4] = 1;
        }
        let rows = [
            ram_fits,
            execution_fits && bootstrap_fits,
            paper_fits,
            journal_fits,
            image_fits && !spoiled,
            budget_fits,
        ];
        let expected = rows.iter().position(|fits| !fits).map_or(0, |row| row as u8 + 1);
        let mut buffers = [image, vec![7; ram], vec![7; paper], vec![7; journal]];
        let before = buffers.clone();
        let [image, ram, paper, journal] = &mut buffers;
        let (execution, bootstrap) = (vec![0; execution], vec![0; bootstrap]);
        let answer = reference::run(
            image,
            &execution,
            &bootstrap,
            ram,
            paper,
            journal,
            no_disks(),
            budget,
            0,
        );
        assert_eq!(answer.number, expected);
        if expected != 0 {
            assert_eq!(answer, Answer::refused(expected));
            assert!(buffers == before);
        }
        met[expected as usize] += 1;
    }
    println!("answers by number {met:?}");
    assert!(met.iter().all(|&count| count >= 100), "{met:?}");
}
