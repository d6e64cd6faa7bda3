//! Steps per second of the plain emulator on a small loop in RAM, with
//! translation off and on, without records and with records into a journal
//! that fits in the cache and into the largest one.
//! Run with `cargo run --release --example speed`.

use std::time::Instant;

use reference::layout::RECORD_BYTES;
use reference::{
    decode, encode, no_disks, reset, run, run_with_records, Answer, Entry, Status, BUDGET_SPENT,
    IMAGE_BYTES,
};

/// What is lent besides ROMs and paper, which the loop has no need of.
struct Lent {
    image: [u8; IMAGE_BYTES],
    ram: Vec<u8>,
    journal: Vec<u8>,
    index: [u8; 16],
}

const ROM: [u8; 256] = [0; 256];

type Run = fn(&mut Lent) -> Answer;

fn without_records(lent: &mut Lent) -> Answer {
    let Lent { image, ram, journal, .. } = lent;
    run(image, &ROM, &ROM, ram, &mut [], journal, no_disks(), BUDGET.into(), 1)
}

fn with_records(lent: &mut Lent) -> Answer {
    let Lent { image, ram, journal, index } = lent;
    run_with_records(image, &ROM, &ROM, ram, &mut [], journal, index, no_disks(), BUDGET.into(), 1)
}

const RAM: u32 = 0x2000_0000;
const BUDGET: u32 = 1_000_000;
const RUNS: u32 = 30;

/// Loads, adds, stores, shifts and branches back; 9 holds RAM's base.
const LOOP: [u32; 9] = [
    0x8D24_0100, // lw    $4, 0x100($9)
    0x24A5_0001, // addiu $5, $5, 1
    0x0085_2021, // addu  $4, $4, $5
    0x0004_3142, // srl   $6, $4, 5
    0x00C4_3026, // xor   $6, $6, $4
    0xAD26_0104, // sw    $6, 0x104($9)
    0x00A6_382A, // slt   $7, $5, $6
    0x1000_FFF8, // beq   $0, $0, -8
    0xA127_0108, // sb    $7, 0x108($9)
];

/// The machine before the loop's first step; with an entry, it is in use.
fn machine_at_loop(entry: Option<Entry>) -> [u8; IMAGE_BYTES] {
    let mut image = [0; IMAGE_BYTES];
    reset(&mut image, &mut [0; 16], 1, 1, 0, 0, [0; 8]);
    let mut machine = decode(&image);
    machine.status = Status(if entry.is_some() { 0x0100_0000 } else { 0 });
    machine.pc = RAM;
    machine.next_pc = RAM + 4;
    machine.registers[9] = RAM;
    machine.tlb[15] = entry.unwrap_or_default();
    encode(&machine, &mut image);
    image
}

fn steps_per_second(run: Run, slots: usize, entry: Option<Entry>) -> f64 {
    let mut ram = vec![0; 4096];
    for (place, word) in ram.chunks_exact_mut(4).zip(LOOP) {
        place.copy_from_slice(&word.to_le_bytes());
    }
    // Not 0, so that no page of the journal is met for the first time below.
    let journal = vec![1; RECORD_BYTES * slots];
    let mut lent = Lent { image: machine_at_loop(entry), ram, journal, index: [0; 16] };
    let start = Instant::now();
    for _ in 0..RUNS {
        let answer = run(&mut lent);
        assert_eq!((answer.reason, answer.steps), (BUDGET_SPENT, BUDGET));
    }
    f64::from(RUNS * BUDGET) / start.elapsed().as_secs_f64()
}

fn main() {
    let mapped = Entry { high: RAM, low: RAM | 0x700 };
    let runs: [(&str, Run, usize); 3] = [
        ("no records", without_records, 64),
        ("records, 16 slots", with_records, 16),
        ("records, 16 MiB", with_records, 32_768),
    ];
    for (name, run, slots) in runs {
        for (translation, entry) in [("off", None), ("on, entry 15", Some(mapped))] {
            let million = steps_per_second(run, slots, entry) / 1e6;
            println!("{name}; translation {translation}: {million:.1} million steps a second");
        }
    }
}
