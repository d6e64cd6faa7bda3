//! Take-back: equal to the state that many steps ago, but for the journal.

mod common;

use common::asm::*;
use common::dice::Dice;
use common::states::random_bench;
use common::*;
use reference::{decode, Answer, History};

/// A bench with its history.
struct Remembered {
    bench: Bench,
    history: History,
}

impl Remembered {
    fn new(bench: Bench, every: u32) -> Remembered {
        Remembered { bench, history: History::new(every) }
    }

    fn run(&mut self, budget: u64, stop: u64) -> Answer {
        let mut image = self.bench.image();
        let bench = &mut self.bench;
        let answer = self.history.run(
            &mut image,
            &bench.execution,
            &bench.bootstrap,
            &mut bench.ram,
            &mut bench.paper,
            &mut bench.journal,
            lend(&mut bench.disks),
            budget,
            stop,
        );
        bench.machine = decode(&image);
        answer
    }

    fn take_back(&mut self, count: u64) -> Option<Answer> {
        let mut image = self.bench.image();
        let bench = &mut self.bench;
        let (ram, paper, journal) = (&mut bench.ram, &mut bench.paper, &mut bench.journal);
        let disks = lend(&mut bench.disks);
        let answer = self.history.take_back(&mut image, ram, paper, journal, disks, count);
        bench.machine = decode(&image);
        answer
    }
}

/// The same machine with another place in the journal.
fn placed(bench: &Bench, on_hand: u32, next_slot: u32) -> Bench {
    let mut bench = bench.clone();
    bench.machine.on_hand = on_hand;
    bench.machine.next_slot = next_slot;
    bench
}

#[test]
fn take_back_is_replay() {
    let mut dice = Dice::new(4);
    let (mut taken, mut refused, mut wrapped, mut all) = (0u64, 0, 0, 0);
    for _ in 0..1_500 {
        let start = random_bench(&mut dice);
        let slots = (start.journal.len() / 512) as u32;
        let every = 1 + dice.below(20);
        let mut remembered = Remembered::new(start.clone(), every);
        let mut states = vec![start];
        for _ in 0..6 {
            let before = states.len();
            let stop = u64::from(dice.below(2));
            let answer = remembered.run(dice.below(25).into(), stop);
            for _ in 0..answer.steps {
                let mut next = states[states.len() - 1].clone();
                next.run_with(1, 0);
                states.push(next);
            }
            assert_eq!(states.len(), before + answer.steps as usize);
            let now = remembered.bench.clone();
            assert_eq!(now, states[states.len() - 1]);

            let on_hand = now.machine.on_hand;
            let count = dice.below(on_hand + 2);
            let answer = remembered.take_back(count.into());
            if count > on_hand {
                assert_eq!(answer, Some(Answer::refused(7)));
                assert_eq!(remembered.bench, now);
                refused += 1;
                continue;
            }
            assert_eq!(answer, Some(Answer::done(0, count)));
            states.truncate(states.len() - count as usize);
            let turned =
                if slots == 0 { 0 } else { (now.machine.next_slot + slots - count) % slots };
            let last = states.len() - 1;
            states[last] = placed(&states[last], on_hand - count, turned);
            assert_eq!(remembered.bench, states[last]);
            taken += u64::from(count);
            wrapped += u32::from(count > now.machine.next_slot);
            all += u32::from(count == on_hand && count > 0);
        }
    }
    println!("{taken} steps taken back, {refused} refusals, {wrapped} round the end, {all} of all");
    assert!(taken >= 10_000 && refused >= 500 && wrapped >= 300 && all >= 300);
}

#[test]
fn reading_64_take_back_of_zero() {
    let mut remembered = Remembered::new(Bench::new(), 5);
    let before = remembered.bench.clone();
    assert_eq!(remembered.take_back(0), Some(Answer::done(0, 0)));
    assert_eq!(remembered.bench, before);
    remembered.bench.machine.random = 0;
    assert_eq!(remembered.take_back(0), Some(Answer::refused(5)));
}

#[test]
fn reading_69_row_7_looks_at_on_hand_only() {
    let mut bench = Bench::new();
    bench.machine.on_hand = 3;
    let mut remembered = Remembered::new(bench, 5);
    assert_eq!(remembered.take_back(4), Some(Answer::refused(7)));
    // On hand says that there are records; only they could tell the answer.
    assert_eq!(remembered.take_back(3), None);
}

#[test]
fn reading_75_on_hand_is_lowered() {
    let mut remembered = Remembered::new(Bench::new(), 2);
    remembered.run(4, 0);
    assert_eq!(remembered.bench.machine.on_hand, 4);
    remembered.run(1, 0);
    assert_eq!((remembered.bench.machine.on_hand, remembered.bench.machine.next_slot), (4, 1));
    remembered.take_back(1);
    assert_eq!((remembered.bench.machine.on_hand, remembered.bench.machine.next_slot), (3, 0));
}

#[test]
fn reading_76_clocks_go_back_too() {
    let words = [sw(4, 0x100, 9), sw(4, printer(2) + 8, 8), addiu(4, 0, 2), NOP];
    let start = Bench::with(&words).register(4, 65);
    let mut remembered = Remembered::new(start.clone(), 10);
    remembered.run(4, 0);
    assert_eq!(remembered.take_back(4), Some(Answer::done(0, 4)));
    assert_eq!(remembered.bench, start);
}

#[test]
fn reading_78_newest_records_first_after_wrap() {
    let words: Vec<u32> = (0..12).map(|step| addiu(4, 0, step)).collect();
    let mut remembered = Remembered::new(Bench::with(&words), 3);
    remembered.run(10, 0);
    assert_eq!(remembered.take_back(3), Some(Answer::done(0, 3)));
    assert_eq!((remembered.bench.reg(4), remembered.bench.machine.next_slot), (6, 3));
    assert_eq!(remembered.take_back(2), Some(Answer::refused(7)));
    assert_eq!(remembered.take_back(1), Some(Answer::done(0, 1)));
    assert_eq!((remembered.bench.reg(4), remembered.bench.machine.on_hand), (5, 0));
}

#[test]
fn a_refused_run_is_not_remembered() {
    let mut remembered = Remembered::new(Bench::new(), 3);
    assert_eq!(remembered.run(1_000_001, 0), Answer::refused(6));
    assert_eq!(remembered.take_back(1), Some(Answer::refused(7)));
}
