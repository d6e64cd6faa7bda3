//! Every row of the table of numbers, its limits, and the lowest first.

mod common;

use common::*;
use reference::{no_disks, reset, rom_answer, rom_window, Answer, History, IMAGE_BYTES};

const REFUSED_STEPS: (u8, u32) = (0, 0);

/// Runs with buffers of these lengths and expects nothing written if refused.
fn run_number(ram: usize, roms: [usize; 2], paper: usize, journal: usize, budget: u64) -> u8 {
    let mut bench = Bench::new();
    bench.ram = vec![0x5A; ram];
    bench.execution = vec![0; roms[0]];
    bench.bootstrap = vec![0; roms[1]];
    bench.paper = vec![0x5A; paper];
    bench.journal = vec![0x5A; journal];
    let before = bench.clone();
    let answer = bench.run_with(budget, 0);
    if answer.number != 0 {
        assert_eq!((answer.reason, answer.steps), REFUSED_STEPS);
        assert_eq!(bench, before);
    }
    answer.number
}

const FINE: [usize; 2] = [4, 4];

#[test]
fn row_1_ram() {
    for (length, number) in [(0, 1), (1, 1), (4095, 1), (4096, 0), (4097, 1), (8192, 0)] {
        assert_eq!(run_number(length, FINE, 0, 0, 0), number);
    }
    assert_eq!(run_number(4096 * 4096, FINE, 0, 0, 0), 0);
    assert_eq!(run_number(4097 * 4096, FINE, 0, 0, 0), 1);
}

#[test]
fn row_2_roms() {
    for (length, number) in [(0, 2), (3, 2), (4, 0), (6, 2), (65_536, 0), (65_540, 2)] {
        assert_eq!(run_number(4096, [length, 4], 0, 0, 0), number);
        assert_eq!(run_number(4096, [4, length], 0, 0, 0), number);
    }
}

#[test]
fn row_3_paper_and_row_4_journal() {
    for (length, number) in [(0, 0), (7, 3), (8, 0), (65_536, 0), (65_544, 3)] {
        assert_eq!(run_number(4096, FINE, length, 0, 0), number);
    }
    for (length, number) in [(0, 0), (511, 4), (256, 4), (512, 0), (16_777_216, 0), (16_777_728, 4)]
    {
        assert_eq!(run_number(4096, FINE, 0, length, 0), number);
    }
}

#[test]
fn row_6_budget() {
    assert_eq!(run_number(4096, FINE, 0, 0, 1_000_000), 0);
    assert_eq!(run_number(4096, FINE, 0, 0, 1_000_001), 6);
    assert_eq!(run_number(4096, FINE, 0, 0, 1 << 32), 6);
}

#[test]
fn lowest_number_of_run() {
    assert_eq!(run_number(1, [0, 0], 1, 1, u64::MAX), 1);
    assert_eq!(run_number(4096, [0, 0], 1, 1, u64::MAX), 2);
    assert_eq!(run_number(4096, FINE, 1, 1, u64::MAX), 3);
    assert_eq!(run_number(4096, FINE, 0, 1, u64::MAX), 4);
    let mut short = vec![7; IMAGE_BYTES - 1];
    let answer = reference::run(
        &mut short,
        &[0; 4],
        &[0; 4],
        &mut [0; 4096],
        &mut [],
        &mut [],
        no_disks(),
        u64::MAX,
        1,
    );
    assert_eq!((answer, short), (Answer::refused(5), vec![7; IMAGE_BYTES - 1]));
}

#[test]
fn reset_rows_5_and_6() {
    for length in [0, IMAGE_BYTES - 1, IMAGE_BYTES + 1] {
        let (mut image, mut index) = (vec![3; length], [3; 17]);
        assert_eq!(reset(&mut image, &mut index, 0, 0, 256, 0, [0; 8]), Answer::refused(5));
        assert_eq!((image, index), (vec![3; length], [3; 17]));
    }
    let wide = (1 << 32) + 1;
    for (scale, delay, installed, number) in [
        (1, 1, 0, 0),
        (255, 65_535, 255, 0),
        (0, 1, 0, 6),
        (256, 1, 0, 6),
        (1, 0, 0, 6),
        (1, 65_536, 0, 6),
        (1, 1, 256, 6),
        (wide, 1, 0, 6),
        (1, wide, 0, 6),
        (1, 1, 1 << 32, 6),
    ] {
        let (mut image, mut index) = (vec![0xEE; IMAGE_BYTES], [0xEE; 32]);
        let answer = reset(&mut image, &mut index, scale, delay, installed, 0, [0; 8]);
        assert_eq!(answer, Answer { number, reason: 0, steps: 0 });
        assert_eq!(image == vec![0xEE; IMAGE_BYTES], number != 0);
        assert_eq!(index, if number == 0 { [0; 32] } else { [0xEE; 32] });
    }
}

#[test]
fn take_back_rows() {
    let try_with = |ram: usize, paper: usize, journal: usize, image_len: usize, count: u64| {
        let mut image = reset_image();
        image.resize(image_len, 0);
        let before = image.clone();
        let mut buffers = [vec![1; ram], vec![1; paper], vec![1; journal]];
        let [ram, paper, journal] = &mut buffers;
        let answer =
            History::new(1).take_back(&mut image, ram, paper, journal, no_disks(), count).unwrap();
        assert_eq!((answer.reason, answer.steps), REFUSED_STEPS);
        assert_eq!(image, before);
        assert!(buffers.iter().flatten().all(|&byte| byte == 1));
        answer.number
    };
    assert_eq!(try_with(1, 1, 1, 0, 9), 1);
    assert_eq!(try_with(4096, 1, 1, 0, 9), 3);
    assert_eq!(try_with(4096, 0, 1, 0, 9), 4);
    assert_eq!(try_with(4096, 0, 0, 0, 9), 5);
    assert_eq!(try_with(4096, 0, 0, IMAGE_BYTES, 1), 7);
    assert_eq!(try_with(4096, 0, 0, IMAGE_BYTES, 1 << 32), 7);
    assert_eq!(try_with(4096, 0, 0, IMAGE_BYTES, 0), 0);
}

#[test]
fn reading_66_and_98_rom_calls_and_row_9() {
    let execution: Vec<u8> = (0..8).collect();
    let bootstrap: Vec<u8> = (100..112).collect();
    for (address, number, first) in [
        (0, 0, 0),
        (4, 0, 4),
        (8, 9, 0),
        (2, 9, 0),
        (0x1FC0_0000, 0, 100),
        (0x1FC0_0008, 0, 108),
        (0x1FC0_000C, 9, 0),
        (0x1FC0_0001, 9, 0),
        (0x2000_0000, 9, 0),
        (0x1000_0000, 9, 0),
        (1 << 32, 9, 0),
        (u64::MAX - 3, 9, 0),
    ] {
        assert_eq!(rom_answer(&execution, &bootstrap, address), number);
        let window = rom_window(&execution, &bootstrap, address);
        let expected: Vec<u8> = if number == 0 { (first..first + 4).collect() } else { vec![] };
        assert_eq!(window, expected);
    }
    assert_eq!(rom_window(&execution, &bootstrap, 4).as_ptr(), execution[4..].as_ptr());
    for short in [&execution[..0], &execution[..3], &execution[..6]] {
        assert_eq!(rom_answer(short, &bootstrap, 1), 2);
        assert_eq!(rom_answer(&execution, short, 0), 2);
        assert!(rom_window(&execution, short, 0).is_empty());
    }
}
