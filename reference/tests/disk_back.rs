//! Transfers taken back, and the index with them (request L4, its readings 21, 23,
//! 26 and 27).

mod common;

use common::asm::*;
use common::dice::Dice;
use common::disks::*;
use common::*;
use reference::{last_write, Answer, Disk, Printer};

/// Round and round at RAM's start.
const ROUND: [u32; 2] = [j(RAM), NOP];

#[test]
fn reading_27_taken_back_in_the_middle() {
    for code in [3, 4] {
        let mut bench =
            Bench::with(&ROUND).disk(2, geometry(1, 1, 1)).moving(2, code, 0x900, 1_024);
        put_words(&mut bench.ram, 0x900, &(0..1_024).map(|word| 0xA000 + word).collect::<Vec<_>>());
        bench.journal = vec![0; 2_000 * 512];
        let start = bench.clone();
        let mut states = vec![start.clone()];
        for _ in 0..1_030 {
            assert_eq!(bench.run_records(1, 0).steps, 1);
            states.push(bench.clone());
        }
        assert_eq!(bench.disk_state(2).status, READY);
        // Into the middle, a little on, and to the beginning.
        for (steps, left) in [(6, 1_024), (500, 524), (24, 500)] {
            assert_eq!(bench.take_back(steps), Answer::done(0, steps as u32));
            let mut expected = states[left].clone();
            expected.journal = bench.journal.clone();
            assert_eq!(bench, expected);
        }
        assert_eq!(bench.run_records(100, 0).steps, 100);
        assert_eq!(bench.take_back(600), Answer::done(0, 600));
        bench.journal = start.journal.clone();
        assert_eq!(bench, start);
    }
}

fn entry(clock: Option<u64>) -> Vec<u8> {
    let words = clock.map_or([0; 4], |clock| [1, (clock >> 32) as u32, clock as u32, 0]);
    words.iter().flat_map(|word| word.to_be_bytes()).collect()
}

fn index(clocks: &[Option<u64>]) -> Vec<u8> {
    clocks.iter().flat_map(|clock| entry(*clock)).collect()
}

#[test]
fn reading_26_a_transfer_across_two_frames() {
    let mut bench = Bench::with(&ROUND).disk(0, geometry(1, 1, 1)).moving(0, 3, 0xFF8, 1_024);
    let mut met = Vec::new();
    for _ in 0..5 {
        assert_eq!(bench.run_records(1, 0).steps, 1);
        met.push(bench.index.clone());
    }
    // Two words in the first frame. Of four slots the first is dropped at step 5.
    let expected = [
        index(&[Some(1), None]),
        index(&[Some(2), None]),
        index(&[Some(2), Some(3)]),
        index(&[Some(2), Some(4)]),
        index(&[Some(2), Some(5)]),
    ];
    assert_eq!(met, expected);
    for clocks in [[Some(2), Some(4)], [Some(2), Some(3)], [Some(2), None], [None, None]] {
        assert_eq!(bench.take_back(1), Answer::done(0, 1));
        assert_eq!(bench.index, index(&clocks));
    }
    // Dropped: after four more steps the first frame is as if never changed.
    assert_eq!(bench.run_records(8, 0).steps, 8);
    assert_eq!(bench.index, index(&[None, Some(9)]));
}

#[test]
fn reading_26_only_what_differs_behind_the_whole_step() {
    // An equal word moved; a store that puts back what the disk has overwritten.
    let mut equal = Bench::with(&ROUND).disk(0, geometry(1, 1, 1)).moving(0, 3, 0x1000, 1_024);
    put_words(&mut equal.ram, 0x1000, &[disk_word(0, 0)]);
    assert_eq!(equal.run_records(1, 0).steps, 1);
    assert_eq!(equal.index, index(&[None, None]));
    let mut cancelled = Bench::with(&[sw(4, 0x1000, 9)]).disk(0, geometry(1, 1, 1));
    cancelled = cancelled.register(4, 0x77).moving(0, 3, 0x1000, 1_024);
    put_words(&mut cancelled.ram, 0x1000, &[0x77]);
    assert_eq!(cancelled.run_records(1, 0).steps, 1);
    assert_eq!(cancelled.index, index(&[None, None]));
    // A write changes no RAM.
    let mut writes = Bench::with(&ROUND).disk(0, geometry(1, 1, 1)).moving(0, 4, 0x1000, 1_024);
    assert_eq!(writes.run_records(1, 0).steps, 1);
    assert_eq!(writes.index, index(&[None, None]));
    // Two disks and a store on one word: its old value is that before the step.
    let mut all = Bench::with(&[sw(4, 0x1000, 9)]).register(4, 0x99);
    for number in [0, 7] {
        all = all.disk(number, geometry(1, 1, 1)).moving(number, 3, 0x1000, 1_024);
    }
    put_words(&mut all.ram, 0x1000, &[0x55]);
    assert_eq!(all.run_records(1, 0).steps, 1);
    assert_eq!(all.index, index(&[None, Some(1)]));
    assert_eq!(ask(&all, 0x1000), (1, 1, 0x55, 0x99));
}

/// Steps, clock, old and new word.
fn ask(bench: &Bench, place: u32) -> (u32, u64, u32, u32) {
    let mut told = [0xEE; 16];
    let Bench { ram, paper, journal, index, .. } = bench;
    let address = u64::from(RAM + place);
    let disks = bench.lent_disks();
    let image = bench.image();
    let answer = last_write(&image, ram, paper, journal, index, disks, address, &mut told);
    assert_eq!((answer.number, answer.reason), (0, 0));
    let word = |at: usize| u32::from_be_bytes(told[at..at + 4].try_into().unwrap());
    let clock = u64::from(word(0)) << 32 | u64::from(word(4));
    (answer.steps, clock, word(8), word(12))
}

#[test]
fn nine_frames_in_one_step() {
    let mut bench = Bench::with(&[sw(4, 0x100, 9)]).register(4, 0x99);
    bench.ram.resize(10 * 0x1000, 0);
    for number in 0..8 {
        bench = bench.disk(number, geometry(1, 1, 1));
        bench = bench.moving(number, 3, 0x1000 * (number as u32 + 1), 1_024);
    }
    assert_eq!(bench.run_records(1, 0).steps, 1);
    let mut clocks = [Some(1); 10];
    clocks[9] = None;
    assert_eq!(bench.index, index(&clocks));
    for number in 0..8 {
        let word = disk_word(number, 0);
        assert_eq!(ask(&bench, 0x1000 * (number as u32 + 1)), (1, 1, 0, word));
    }
    assert_eq!(ask(&bench, 0x1004), (0, 0, 0, 0));
    assert_eq!(bench.take_back(1), Answer::done(0, 1));
    assert_eq!(bench.index, index(&[None; 10]));
}

/// The first place of a frame counts, the store's before the disks': only a record
/// that no step has written has two distances for one frame.
#[test]
fn two_distances_for_one_frame() {
    let mut bench = Bench::with(&[NOP, NOP, NOP, sw(4, 0x1800, 9)]).register(4, 9);
    assert_eq!(bench.run_records(3, 0).steps, 3);
    let mut bench = bench.disk(1, geometry(1, 1, 1)).disk(4, geometry(1, 1, 1));
    bench = bench.moving(1, 3, 0x1000, 1_024).moving(4, 3, 0x1000, 1_000);
    assert_eq!(bench.run_records(1, 0).steps, 1);
    let with = |changes: &[(usize, u8)]| {
        let mut bench = bench.clone();
        for &(at, byte) in changes {
            bench.record(0)[at] = byte;
        }
        assert_eq!(bench.take_back(1), Answer::done(0, 1));
        bench.index[16..].to_vec()
    };
    assert_eq!(with(&[]), entry(None));
    assert_eq!(with(&[(248, 1), (386, 2), (392, 3)]), entry(Some(3)));
    // Without a store the highest disk's.
    let no_store = [(236, 0), (240, 0), (241, 0), (244, 0)];
    assert_eq!(with(&[&no_store[..], &[(386, 2), (392, 3)]].concat()), entry(Some(1)));
}

/// A loop of stores to few words, of commands, and of looks at the disks.
fn random_code(dice: &mut Dice) -> Vec<u32> {
    let mut code: Vec<u32> = (0..dice.below(10) + 3)
        .map(|_| {
            let (value, place) = (dice.below(4) + 4, dice.pick(&[0x800, 0x804, 0x1000, 0x1004]));
            let field = dice.pick(&[COMMAND, COMMAND, DATA0]);
            match dice.below(8) {
                0 => addiu(value, value, 1),
                1 => sw(10 + dice.below(6), disk(dice.below(8)) + field, 8),
                2 => immediate(0x28, 9, value, place + dice.below(4)),
                3 => sw(10, printer(dice.below(8)) + COMMAND, 8),
                4 => lw(value, disk(dice.below(8)) + 4 * dice.below(4), 8),
                5 => lw(value, place, 9),
                _ => sw(value, place, 9),
            }
        })
        .collect();
    code.extend([j(RAM), NOP]);
    code
}

/// A disk at rest, at a transfer or on its way, with a printer of its number.
fn random_disk(dice: &mut Dice, bench: Bench, number: usize) -> Bench {
    let mut bench = bench.disk(number, geometry(1 + dice.below(2), 1, 1));
    let delay = bench.machine.printer_delay;
    let disk = &mut bench.machine.disks[number];
    disk.data0 = RAM + dice.pick(&[0x7F0, 0x7FC, 0x800, 0x804, 0xFFC, 0x1000]);
    if dice.chance(2) {
        let words_left = dice.pick(&[1_024, 1_023, 20, 9, 3, 1]);
        *disk = Disk { status: BUSY, command: dice.pick(&[3, 4]), words_left, ..*disk };
    } else if dice.chance(2) {
        let ticks_left = 1 + dice.below(delay);
        *disk = Disk { status: BUSY, command: dice.pick(&[0, 2]), ticks_left, ..*disk };
    }
    bench.machine.installed |= 1 << number;
    let ticks_left = 1 + dice.below(delay);
    bench.machine.printers[number] =
        Printer { status: 3, command: 2, data0: 65, ticks_left, paper_count: 0 };
    bench
}

/// Goes back to what was interrupted; the disks' interrupt is acknowledged.
const HANDLER: [u32; 4] = [sw(3, disk(0) + COMMAND, 8), mfc0(26, EPC), jr(26), RFE];

fn random_disks(dice: &mut Dice) -> Bench {
    let mut bench = Bench::with(&random_code(dice)).register(3, 1);
    let values = [2, seek(1), read(0, 0), write(0, 0), RAM + 0x800, RAM + 0x1000];
    for (number, value) in values.into_iter().enumerate() {
        bench = bench.register(10 + number, value);
    }
    bench.machine.printer_delay = 1 + dice.below(9);
    for number in 0..8 {
        if !dice.chance(4) {
            bench = random_disk(dice, bench, number);
        }
    }
    bench.journal = vec![7; 512 * dice.pick(&[0, 1, 2, 3, 17, 60]) as usize];
    put_words(&mut bench.execution, 0x80, &HANDLER);
    bench.status(dice.pick(&[KERNEL, KERNEL, KERNEL | 0x4801]))
}

/// The index worked out afresh: the states one after the other.
fn afresh(bench: &Bench) -> Vec<u8> {
    let mut past = bench.clone();
    let mut clocks = vec![None; bench.ram.len() / 4096];
    while past.machine.on_hand > 0 {
        let after = past.clone();
        assert_eq!(past.take_back(1).number, 0);
        let frames = after.ram.chunks(4096).zip(past.ram.chunks(4096));
        for (clock, (after_frame, frame)) in clocks.iter_mut().zip(frames) {
            if clock.is_none() && after_frame != frame {
                *clock = Some(after.machine.clock);
            }
        }
    }
    index(&clocks)
}

/// What `last_write` has to tell, by the states one after the other.
fn told_afresh(bench: &Bench, place: usize) -> (u32, u64, u32, u32) {
    let mut past = bench.clone();
    for steps in 1..=bench.machine.on_hand {
        let (new, clock) = (past.ram_word(place), past.machine.clock);
        assert_eq!(past.take_back(1).number, 0);
        if past.ram_word(place) != new {
            return (steps, clock, past.ram_word(place), new);
        }
    }
    (0, 0, 0, 0)
}

#[derive(Default, Debug)]
struct Met {
    steps: u64,
    taken: u64,
    words: u64,
    both: u64,
    kinds: [u64; 5],
    hows: [u64; 4],
}

impl Met {
    fn count(&mut self, record: &[u8], installed: u32) {
        self.kinds[record[236] as usize] += 1;
        // A quarter of the disks that stores are meant for are not there: no kind 4.
        assert!(record[236] != 4 || installed >> ((record[240] - 0x50) / 0x10) & 1 == 1);
        let hows: Vec<usize> = (0..8).map(|number| record[256 + 16 * number] as usize).collect();
        hows.iter().for_each(|how| self.hows[*how] += 1);
        self.words += u64::from(hows.iter().filter(|how| **how >= 2).count() > 1);
        self.both += u64::from(record[236] == 3 && hows.contains(&2));
    }
}

fn compare(dice: &mut Dice, met: &mut Met) {
    let mut bench = random_disks(dice);
    let mut states = vec![bench.clone()];
    for _ in 0..6 {
        let steps = bench.run_records(dice.below(30).into(), 0).steps;
        met.steps += u64::from(steps);
        for _ in 0..steps {
            // By the definition of the step, without records.
            let mut next = states[states.len() - 1].clone();
            next.step();
            states.push(next);
        }
        for age in 0..bench.machine.on_hand.min(steps) {
            let record = bench.record(age).to_vec();
            met.count(&record, bench.machine.disks_installed);
        }
        assert_eq!(bench.index, afresh(&bench));
        let place = dice.pick(&[0x800, 0x804, 0xFFC, 0x1000, 0x1004]);
        assert_eq!(ask(&bench, place), told_afresh(&bench, place as usize));
        let back = dice.below(bench.machine.on_hand + 1);
        assert_eq!(bench.take_back(back.into()), Answer::done(0, back));
        met.taken += u64::from(back);
        states.truncate(states.len() - back as usize);
        let mut expected = states[states.len() - 1].clone();
        expected.machine.on_hand = bench.machine.on_hand;
        expected.machine.next_slot = bench.machine.next_slot;
        expected.journal = bench.journal.clone();
        expected.index = bench.index.clone();
        assert_eq!(bench, expected);
        assert_eq!(bench.index, afresh(&bench));
    }
}

#[test]
fn random_transfers_there_and_back() {
    let mut dice = Dice::new(81);
    let mut met = Met::default();
    for _ in 0..1_500 {
        compare(&mut dice, &mut met);
    }
    println!("{met:?}");
    assert!(met.taken >= 10_000 && met.words >= 2_000 && met.both >= 500);
    assert!(met.hows.iter().all(|&count| count >= 2_000) && met.kinds[4] >= 300);
}
