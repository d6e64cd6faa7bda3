//! Records and take-back on random machines, beside checkpoints and replay.

mod common;

use common::asm::*;
use common::dice::Dice;
use common::states::random_bench_with_slots;
use common::*;
use reference::{Answer, History, TWO_MATCHES};

/// A bench whose steps are taken back by replay.
struct Replayed {
    bench: Bench,
    history: History,
}

impl Replayed {
    fn run(&mut self, budget: u64, stop: u64) -> Answer {
        let (history, bench) = (&mut self.history, &mut self.bench);
        let (mut image, roms) = (bench.image(), (&bench.execution, &bench.bootstrap));
        let (ram, paper, journal) = (&mut bench.ram, &mut bench.paper, &mut bench.journal);
        let disks = lend(&mut bench.disks);
        let answer =
            history.run(&mut image, roms.0, roms.1, ram, paper, journal, disks, budget, stop);
        bench.machine = reference::decode(&image);
        answer
    }

    fn take_back(&mut self, steps: u64) -> Answer {
        let (history, bench) = (&mut self.history, &mut self.bench);
        let mut image = bench.image();
        let (ram, paper, journal) = (&mut bench.ram, &mut bench.paper, &mut bench.journal);
        let disks = lend(&mut bench.disks);
        let answer = history.take_back(&mut image, ram, paper, journal, disks, steps);
        bench.machine = reference::decode(&image);
        answer.expect("the history reaches as far back as the journal")
    }
}

/// The same bench with the journal and the index of another.
fn with_journal_of(bench: &Bench, other: &Bench) -> Bench {
    Bench { journal: other.journal.clone(), index: other.index.clone(), ..bench.clone() }
}

#[derive(Default, Debug)]
struct Met {
    taken: u64,
    refused: u32,
    round: u32,
    all: u32,
    /// Records by the kind of what else was overwritten, and those with paper.
    kinds: [u32; 5],
    paper: u32,
}

impl Met {
    fn count(&mut self, record: &[u8]) {
        self.kinds[record[236] as usize] += 1;
        self.paper += u32::from(record[64] != 0);
    }
}

/// One machine runs in one call and takes back in one, one does both step by
/// step, one has no records and replays. All have to agree, the first two in
/// the journal's bytes as well, and the past states have to come back.
fn compare(dice: &mut Dice, slots: u32, met: &mut Met) {
    let mut whole = random_bench_with_slots(dice, slots);
    let mut parts = whole.clone();
    let every = 1 + dice.below(20);
    let mut replayed = Replayed { bench: whole.clone(), history: History::new(every) };
    let mut past: Vec<Bench> = Vec::new();
    for _ in 0..6 {
        let (budget, stop) = (dice.below(25).into(), dice.below(2).into());
        let answer = whole.run_records(budget, stop);
        assert_eq!(answer, replayed.run(budget, stop));
        for _ in 0..answer.steps {
            past.push(parts.clone());
            assert_eq!(parts.run_records(1, 0), Answer::done(1, 1));
            if slots > 0 {
                met.count(parts.record(0));
            }
        }
        assert_eq!(whole, parts);
        assert_eq!(with_journal_of(&whole, &replayed.bench), replayed.bench);

        let before = whole.clone();
        let (on_hand, next_slot) = (before.machine.on_hand, before.machine.next_slot);
        let steps = dice.below(on_hand + 2);
        let answer = whole.take_back(steps.into());
        assert_eq!(answer, replayed.take_back(steps.into()));
        assert_eq!(whole.journal, before.journal);
        assert_eq!(with_journal_of(&whole, &replayed.bench), replayed.bench);
        if steps > on_hand {
            assert_eq!(answer, Answer::refused(7));
            met.refused += 1;
            continue;
        }
        assert_eq!(answer, Answer::done(0, steps));
        for _ in 0..steps {
            assert_eq!(parts.take_back(1), Answer::done(0, 1));
            let mut then = with_journal_of(&past.pop().unwrap(), &parts);
            then.machine.on_hand = parts.machine.on_hand;
            then.machine.next_slot = parts.machine.next_slot;
            assert_eq!(parts, then);
        }
        assert_eq!(whole, parts);
        met.taken += u64::from(steps);
        met.round += u32::from(steps > next_slot);
        met.all += u32::from(steps == on_hand && steps > 0);
    }
}

#[test]
fn take_back_restores_and_equals_replay() {
    let mut dice = Dice::new(21);
    for slots in [0, 1, 2, 3, 17] {
        let mut met = Met::default();
        for _ in 0..1_000 {
            compare(&mut dice, slots, &mut met);
        }
        println!("{slots} slots: {met:?}");
        assert!(met.refused >= 100);
        let some = slots > 0;
        assert!((met.taken >= 500) == some && (met.round >= 100) == some);
        assert!((met.all >= 100) == some);
        let least = met.kinds[..4].iter().copied().chain([met.paper]).min();
        assert!((least >= Some(50)) == some);
        // These machines have no disks; stores to where those would be are kind 0.
        assert_eq!(met.kinds[4], 0);
    }
}

/// Every byte of the slot is written, from the state before the step alone,
/// and no other byte of the journal.
#[test]
fn reading_81_and_82_the_slot_and_nothing_but_the_slot() {
    let mut dice = Dice::new(22);
    let mut steps = 0;
    for _ in 0..300 {
        let mut bench = random_bench_with_slots(&mut dice, 3);
        for _ in 0..40 {
            let mut other = bench.clone();
            other.journal = bench.journal.iter().map(|byte| !byte).collect();
            let at = bench.machine.next_slot as usize * 512;
            let (mut expected, mut other_expected) = (bench.journal.clone(), other.journal.clone());
            let answer = bench.run_records(1, 0);
            assert_eq!(other.run_records(1, 0), answer);
            if answer.reason == TWO_MATCHES {
                assert!(bench.journal == expected && other.journal == other_expected);
                break;
            }
            let record = bench.journal[at..at + 512].to_vec();
            expected[at..at + 512].copy_from_slice(&record);
            other_expected[at..at + 512].copy_from_slice(&record);
            assert!(bench.journal == expected && other.journal == other_expected);
            steps += 1;
        }
    }
    println!("{steps} steps over two different slots");
    assert!(steps >= 10_000);
}

/// The largest journal, gone round more than once and then emptied.
#[test]
fn all_of_the_largest_journal() {
    const SLOTS: u32 = 32_768;
    let print = sw(4, printer(2) + 4, 8);
    let body =
        [print, addiu(5, 5, 3), sw(5, 0x100, 9), TLBWR, mtc0(5, ENTRY_HI), j(RAM), addiu(9, 9, 4)];
    let mut bench = Bench::with(&body).register(4, 2);
    bench.ram.resize(1 << 20, 0);
    bench.paper.resize(65_536, 0x2E);
    bench.journal = vec![0xC5; 512 * SLOTS as usize];
    assert_eq!(bench.run_records(100_000, 1), Answer::done(1, 100_000));
    let then = bench.clone();
    assert_eq!(bench.run_records(SLOTS.into(), 1), Answer::done(1, SLOTS));
    assert!(bench != then && bench.machine.on_hand == SLOTS);
    assert_eq!(bench.take_back(u64::from(SLOTS) + 1), Answer::refused(7));
    assert_eq!(bench.take_back(SLOTS.into()), Answer::done(0, SLOTS));
    let mut expected = with_journal_of(&then, &bench);
    expected.machine.on_hand = 0;
    assert_eq!(bench, expected);
    println!("{SLOTS} steps taken back in one call");
}
