//! The index and the question who last wrote a word (request L6).

mod common;

use common::asm::*;
use common::dice::Dice;
use common::*;
use reference::{last_write, no_disks, reset, Answer, IMAGE_BYTES};

fn entry(clock: Option<u64>) -> Vec<u8> {
    let words = clock.map_or([0; 4], |clock| [1, (clock >> 32) as u32, clock as u32, 0]);
    words.iter().flat_map(|word| word.to_be_bytes()).collect()
}

fn index(clocks: &[Option<u64>]) -> Vec<u8> {
    clocks.iter().flat_map(|clock| entry(*clock)).collect()
}

fn disks(bench: &Bench) -> [&[u8]; 8] {
    bench.disks.each_ref().map(|disk| &disk[..])
}

fn ask(bench: &Bench, address: u64) -> (Answer, [u8; 16]) {
    let mut told = [0xEE; 16];
    let Bench { ram, paper, journal, index, .. } = bench;
    let answer =
        last_write(&bench.image(), ram, paper, journal, index, disks(bench), address, &mut told);
    (answer, told)
}

fn tell(clock: u64, old: u32, new: u32) -> [u8; 16] {
    let number = u128::from(clock) << 64 | u128::from(old) << 32 | u128::from(new);
    number.to_be_bytes()
}

/// Stores to both frames: a change, an equal one, another frame's, a change.
fn stores() -> Bench {
    let code =
        [sw(4, 0x100, 9), sw(4, 0x100, 9), sw(4, 0x1200, 9), immediate(0x28, 9, 5, 0x101), NOP];
    let mut bench = Bench::with(&code).register(4, 0x1111_1111).register(5, 0x22);
    bench.machine.clock = u64::MAX - 1;
    bench
}

#[test]
fn each_step_moves_the_index() {
    let mut bench = stores();
    let mut met = Vec::new();
    for _ in 0..5 {
        assert_eq!(bench.run_records(1, 1), Answer::done(1, 1));
        met.push(bench.index.clone());
    }
    // The clock goes round; of four slots the first is used again at the last step.
    let first = Some(u64::MAX);
    let expected = [
        index(&[first, None]),
        index(&[first, None]),
        index(&[first, Some(1)]),
        index(&[Some(2), Some(1)]),
        index(&[Some(2), Some(1)]),
    ];
    assert_eq!(met, expected);
    assert_eq!(bench.take_back(2), Answer::done(0, 2));
    // The first store has been dropped, so that the frame is as if never changed.
    assert_eq!(bench.index, index(&[None, Some(1)]));
    assert_eq!(bench.take_back(2), Answer::done(0, 2));
    assert_eq!(bench.index, index(&[None, None]));
}

#[test]
fn the_step_before_is_named_again() {
    let mut bench = stores();
    assert_eq!(bench.run_records(4, 1), Answer::done(1, 4));
    assert_eq!(bench.record(0)[248..252], 3u32.to_le_bytes());
    assert_eq!(bench.record(2)[248..252], 1u32.to_le_bytes());
    assert_eq!(bench.take_back(1), Answer::done(0, 1));
    assert_eq!(bench.index, index(&[Some(u64::MAX), Some(1)]));
    assert_eq!(bench.take_back(2), Answer::done(0, 2));
    assert_eq!(bench.index, index(&[Some(u64::MAX), None]));
    assert_eq!(bench.take_back(1), Answer::done(0, 1));
    assert_eq!(bench.index, index(&[None, None]));
}

#[test]
fn a_dropped_step_is_named_no_more() {
    let mut bench = stores();
    bench.journal.truncate(2 * 512);
    let mut expected = [Some(u64::MAX), Some(u64::MAX), None, Some(2)].iter();
    for _ in 0..4 {
        assert_eq!(bench.run_records(1, 1), Answer::done(1, 1));
        assert_eq!(bench.index[..16], entry(*expected.next().unwrap()));
    }
    let mut bench = stores();
    bench.journal.clear();
    bench.index.fill(0x77);
    assert_eq!(bench.run_records(5, 1), Answer::done(1, 5));
    assert_eq!(bench.index, [0x77; 32]);
}

/// The entry of the first frame has a fourth word: it names its step all the same,
/// and is left as it is until another is written.
#[test]
fn the_first_word_alone_says_whether_a_step_is_named() {
    let stored_once = || {
        let mut bench = stores();
        assert_eq!(bench.run_records(1, 1), Answer::done(1, 1));
        bench
    };
    for fourth in [0, 1, 1 << 31, u32::MAX] {
        let mut other = entry(Some(u64::MAX));
        other[12..].copy_from_slice(&fourth.to_be_bytes());
        for first in [1u32, 0, 2, 1 << 24, 0x1_0001, u32::MAX] {
            let names = first == 1;
            let mut met = other.clone();
            met[..4].copy_from_slice(&first.to_be_bytes());

            // An equal store, then another: how far back each was.
            let mut bench = stored_once();
            bench.index[..16].copy_from_slice(&met);
            assert_eq!(bench.run_records(2, 1), Answer::done(1, 2));
            assert_eq!(bench.index[..16], met);
            assert_eq!(bench.run_records(1, 1), Answer::done(1, 1));
            assert_eq!(bench.index[..16], entry(Some(2)));
            assert_eq!(bench.record(2)[248..252], u32::from(names).to_le_bytes());
            assert_eq!(bench.record(0)[248..252], (3 * u32::from(names)).to_le_bytes());
            assert_eq!(bench.take_back(1), Answer::done(0, 1));
            assert_eq!(bench.index[..16], entry(names.then_some(u64::MAX)));

            // Taken back: the step that is named, and before it one that is not.
            let mut bench = stored_once();
            assert_eq!(bench.run_records(1, 1), Answer::done(1, 1));
            bench.index[..16].copy_from_slice(&met);
            assert_eq!(bench.take_back(1), Answer::done(0, 1));
            assert_eq!(bench.index[..16], met);
            assert_eq!(bench.take_back(1), Answer::done(0, 1));
            assert_eq!(bench.index[..16], if names { entry(None) } else { met.clone() });

            // Dropped.
            let mut bench = stores();
            bench.journal.truncate(2 * 512);
            assert_eq!(bench.run_records(2, 1), Answer::done(1, 2));
            bench.index[..16].copy_from_slice(&met);
            assert_eq!(bench.run_records(1, 1), Answer::done(1, 1));
            assert_eq!(bench.index[..16], if names { entry(None) } else { met });
        }
    }
}

#[test]
fn who_last_wrote() {
    let mut bench = stores();
    assert_eq!(bench.run_records(4, 1), Answer::done(1, 4));
    let none = (Answer::done(0, 0), [0; 16]);
    let newest = (Answer::done(0, 1), tell(2, 0x1111_1111, 0x1111_2211));
    assert_eq!(ask(&bench, 0x2000_0100), newest);
    assert_eq!(ask(&bench, 0x2000_1200), (Answer::done(0, 2), tell(1, 0, 0x1111_1111)));
    assert_eq!(ask(&bench, 0x2000_0104), none);
    bench.take_back(1);
    // The equal store is passed by.
    assert_eq!(ask(&bench, 0x2000_0100), (Answer::done(0, 3), tell(u64::MAX, 0, 0x1111_1111)));
    bench.take_back(3);
    assert_eq!(ask(&bench, 0x2000_0100), none);
}

#[test]
fn the_question_reads_no_index() {
    let mut bench = stores();
    assert_eq!(bench.run_records(4, 1), Answer::done(1, 4));
    let right = ask(&bench, 0x2000_0100);
    bench.index.fill(0xA5);
    assert_eq!(ask(&bench, 0x2000_0100), right);
}

#[test]
fn addresses_and_answer_buffers() {
    let bench = stores();
    let outside = [0, 0x1FFF_FFFC, 0x2000_0001, 0x2000_2000, 0x1_2000_0000, u64::MAX - 3];
    for address in outside {
        assert_eq!(ask(&bench, address), (Answer::refused(11), [0xEE; 16]));
    }
    assert_eq!(ask(&bench, 0x2000_1FFC).0, Answer::done(0, 0));
    for length in [0, 15, 17] {
        let mut told = vec![0xEE; length];
        let Bench { ram, paper, journal, index, .. } = &bench;
        let answer = |address, told: &mut [u8]| {
            last_write(&bench.image(), ram, paper, journal, index, disks(&bench), address, told)
        };
        assert_eq!(answer(0x2000_0000, &mut told), Answer::refused(12));
        assert_eq!(answer(0x2000_0002, &mut told), Answer::refused(11));
        assert_eq!(told, vec![0xEE; length]);
    }
}

/// Row 8 looks at every record on hand; 10 and on come behind it.
#[test]
fn the_rows_of_the_question() {
    let mut bench = stores();
    assert_eq!(bench.run_records(4, 1), Answer::done(1, 4));
    bench.index.truncate(16);
    assert_eq!(ask(&bench, 1).0, Answer::refused(10));
    bench.record(3)[255] = 1;
    assert_eq!(ask(&bench, 1).0, Answer::refused(8));
    bench.machine.on_hand = 3;
    assert_eq!(ask(&bench, 1).0, Answer::refused(10));
    bench.record(3)[255] = 0;
    for (change, number) in [(0, 5), (1, 4), (2, 3), (3, 1)] {
        match change {
            0 => bench.machine.random = 0,
            1 => bench.journal.push(0),
            2 => bench.paper.push(0),
            _ => bench.ram.push(0),
        }
        assert_eq!(ask(&bench, 1), (Answer::refused(number), [0xEE; 16]));
    }
}

#[test]
fn index_lengths() {
    for (length, number) in [(0, 10), (15, 10), (16, 0), (17, 10), (65_536, 0), (65_552, 10)] {
        let (mut image, mut index) = (vec![0xEE; IMAGE_BYTES], vec![0xEE; length]);
        assert_eq!(reset(&mut image, &mut index, 1, 1, 0, 0, [0; 8]).number, number);
        assert_eq!(index, vec![if number == 0 { 0 } else { 0xEE }; length]);
        assert_eq!(image == vec![0xEE; IMAGE_BYTES], number != 0);
    }
    for length in [0, 16, 31, 33, 48] {
        let Bench { execution, bootstrap, mut ram, mut paper, mut journal, .. } = stores();
        let (mut image, mut index) = (stores().image(), vec![9; length]);
        let budget = if length == 0 { 0 } else { 4 };
        let answer = reference::run_with_records(
            &mut image,
            &execution,
            &bootstrap,
            &mut ram,
            &mut paper,
            &mut journal,
            &mut index,
            no_disks(),
            budget,
            0,
        );
        assert_eq!((answer, index), (Answer::refused(10), vec![9; length]));
        assert_eq!(ram, stores().ram);
    }
}

/// The index worked out afresh: the states one after the other, as take-back
/// gives them.
fn afresh(bench: &Bench) -> Vec<u8> {
    let mut past = bench.clone();
    let mut clocks = vec![None; bench.ram.len() / 4096];
    while past.machine.on_hand > 0 {
        let after = past.clone();
        past.take_back(1);
        let frames = after.ram.chunks(4096).zip(past.ram.chunks(4096));
        for (clock, (after_frame, frame)) in clocks.iter_mut().zip(frames) {
            if clock.is_none() && after_frame != frame {
                *clock = Some(after.machine.clock);
            }
        }
    }
    index(&clocks)
}

/// A loop of stores to few words, of few values, and of other words.
fn stores_at_random(dice: &mut Dice) -> Bench {
    let mut code: Vec<u32> = (0..dice.below(12) + 2)
        .map(|_| {
            let (value, place) = (dice.below(3) + 4, dice.pick(&[0x800, 0x804, 0x1000, 0x1800]));
            match dice.below(6) {
                0 => addiu(value, value, 1),
                1 => immediate(0x28, 9, value, place + dice.below(4)),
                2 => NOP,
                _ => sw(value, place, 9),
            }
        })
        .collect();
    code.extend([j(RAM), NOP]);
    let mut bench = Bench::with(&code);
    bench.machine.clock = dice.pick(&[0, u32::MAX]).into();
    bench.journal.resize(512 * dice.pick(&[1, 2, 3, 17]) as usize, 7);
    bench
}

#[test]
fn the_index_is_the_one_worked_out_afresh() {
    let mut dice = Dice::new(61);
    let (mut taken, mut named, mut emptied) = (0, [0; 3], 0);
    for _ in 0..1_500 {
        let mut bench = stores_at_random(&mut dice);
        for _ in 0..6 {
            let before = bench.index.clone();
            bench.run_records(dice.below(25).into(), 1);
            assert_eq!(bench.index, afresh(&bench));
            emptied += u32::from(bench.index[16..] == entry(None) && before[16..] != entry(None));
            let back = dice.below(bench.machine.on_hand + 1);
            bench.take_back(back.into());
            assert_eq!(bench.index, afresh(&bench));
            taken += back;
            named[bench.index.chunks(16).filter(|frame| frame != &entry(None)).count()] += 1;
        }
    }
    println!("{taken} taken back, so many frames named at the end: {named:?}, {emptied} emptied");
    assert!(taken >= 5_000 && named.iter().all(|&count| count >= 300) && emptied >= 100);
}
