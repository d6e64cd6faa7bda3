//! The two calls on the ROMs: answers and windows beside the reference's.

use crate::archive;
use crate::dice::Dice;
use crate::guarded::Guarded;
use crate::report::{at_least, different, hex, plain, said};

const EXECUTION_BASE: u64 = 0;
const BOOTSTRAP_BASE: u64 = 0x1FC0_0000;
const MOST_BYTES: u64 = 65_536;

#[derive(Default)]
struct Counts {
    cases: u64,
    /// By number: 0, 2, 9.
    done: u64,
    refused_2: u64,
    refused_9: u64,
    execution: u64,
    bootstrap: u64,
    /// Refused with 2 although 9 applies too.
    both: u64,
    past_32_bits: u64,
    /// Refused for an address just behind a ROM, where the other refusals fail.
    just_behind: u64,
}

impl Counts {
    fn add(&mut self, number: u8, execution: &Guarded, bootstrap: &Guarded, address: u64) {
        self.cases += 1;
        match number {
            0 => {
                self.done += 1;
                self.execution += u64::from(address < BOOTSTRAP_BASE);
                self.bootstrap += u64::from(address >= BOOTSTRAP_BASE);
            }
            2 => {
                self.refused_2 += 1;
                self.both += u64::from(address % 4 != 0);
            }
            9 => {
                self.refused_9 += 1;
                self.past_32_bits += u64::from(address >> 32 != 0);
                let ends = [
                    EXECUTION_BASE + execution.len() as u64,
                    BOOTSTRAP_BASE + bootstrap.len() as u64,
                ];
                self.just_behind += u64::from(ends.contains(&address));
            }
            _ => different("rom", &[format!("the reference answered {number}")]),
        }
    }
}

fn one(
    execution: &Guarded,
    bootstrap: &Guarded,
    address: u64,
    dice: &mut Dice,
    counts: &mut Counts,
) {
    let number = reference::rom_answer(execution.content(), bootstrap.content(), address);
    let window = reference::rom_window(execution.content(), bootstrap.content(), address);
    let before = dice.word().to_be_bytes();
    // Where nothing is returned, nothing is copied.
    let expected = if window.is_empty() { &before[..] } else { window };
    let mut out = Guarded::new(&before);
    let answer = archive::rom_answer(execution, bootstrap, address);
    let length = archive::rom_window(execution, bootstrap, address, &mut out);
    let right_window = length == Ok(window.len() as u64) && out.content() == expected;
    if answer != Ok(number.into()) || !right_window {
        let mut lines = vec![
            format!("execution ROM {} bytes, bootstrap ROM {}", execution.len(), bootstrap.len()),
            format!("address {address:#x} ({address})"),
            format!("archive answers:   {}", said(&answer, plain)),
            format!("reference answers: {number}"),
            format!("archive's window:   {} bytes", said(&length, plain)),
            format!("reference's window: {} bytes", window.len()),
            format!("four bytes lent for it: {}", hex(&before)),
            format!("after the archive:   {}", hex(out.content())),
            format!("after the reference: {}", hex(expected)),
        ];
        if let Some(place) = (0..4).find(|place| out.content()[*place] != expected[*place]) {
            lines.push(format!("first differing byte: byte {place} of the window"));
        }
        different("rom", &lines);
    }
    counts.add(number, execution, bootstrap, address);
}

/// The edges of both ROMs, of their largest sizes and of what lies between.
fn edges(execution: &Guarded, bootstrap: &Guarded) -> Vec<u64> {
    let mut around = vec![0x1000_0000, 0x2000_0000, 0x7FFF_FFFC, 0xFFFF_FFFC, 1 << 32, 1 << 63];
    for (base, rom) in [(EXECUTION_BASE, execution), (BOOTSTRAP_BASE, bootstrap)] {
        for start in [base, base | 1 << 32, base | 1 << 63] {
            around.extend_from_slice(&[start, start + rom.len() as u64, start + MOST_BYTES]);
        }
    }
    let mut addresses = vec![u64::MAX, u64::MAX - 3];
    for middle in around {
        for distance in 0..=8 {
            addresses.push(middle + distance);
            addresses.push(middle.wrapping_sub(distance));
        }
    }
    addresses
}

/// The lengths at the edges of the range of row 2, and some others.
fn lengths(dice: &mut Dice) -> Vec<usize> {
    let mut lengths: Vec<usize> = (0..=40).chain(65_528..=65_544).collect();
    for _ in 0..6 {
        lengths.push(4 * dice.between(11, 16_381) as usize);
        lengths.push(dice.between(41, 65_527) as usize);
        lengths.push(dice.between(65_545, 200_000) as usize);
    }
    lengths
}

fn roms(dice: &mut Dice, lengths: &[usize]) -> Vec<Guarded> {
    lengths.iter().map(|length| Guarded::new(&dice.bytes(*length))).collect()
}

fn fits(rom: &Guarded) -> bool {
    rom.len() % 4 == 0 && (4..=65_536).contains(&rom.len())
}

/// All pairs of lengths: all edges where both fit, a few of them elsewhere.
fn all_pairs(dice: &mut Dice, counts: &mut Counts) -> u64 {
    let lengths = lengths(dice);
    let (executions, bootstraps) = (roms(dice, &lengths), roms(dice, &lengths));
    let mut pairs = 0;
    for (turn, execution) in executions.iter().enumerate() {
        for bootstrap in &bootstraps {
            pairs += 1;
            let addresses = edges(execution, bootstrap);
            if fits(execution) && fits(bootstrap) {
                for address in addresses {
                    one(execution, bootstrap, address, dice, counts);
                }
            } else {
                for address in [EXECUTION_BASE, BOOTSTRAP_BASE, dice.pick(&addresses)] {
                    one(execution, bootstrap, address, dice, counts);
                }
            }
        }
        if turn % 20 == 19 {
            println!("rom: {} cases so far", counts.cases);
        }
    }
    pairs
}

/// Every address of two ROMs of middle size, and many of the largest.
fn every_place(dice: &mut Dice, counts: &mut Counts) {
    let (execution, bootstrap) = (&roms(dice, &[4_096])[0], &roms(dice, &[1_028])[0]);
    for place in 0..4_200 {
        one(execution, bootstrap, EXECUTION_BASE + place, dice, counts);
        one(execution, bootstrap, BOOTSTRAP_BASE + place, dice, counts);
    }
    let (execution, bootstrap) = (&roms(dice, &[65_536])[0], &roms(dice, &[65_536])[0]);
    for _ in 0..10_000 {
        let place = u64::from(4 * dice.below(16_384));
        let base = dice.pick(&[EXECUTION_BASE, BOOTSTRAP_BASE]);
        one(execution, bootstrap, base + place, dice, counts);
        one(execution, bootstrap, dice.any_size(), dice, counts);
    }
}

pub fn compare(dice: &mut Dice) {
    let mut counts = Counts::default();
    let pairs = all_pairs(dice, &mut counts);
    every_place(dice, &mut counts);
    println!("rom: all");
    at_least("pairs of lengths", pairs, 58 * 58);
    at_least("cases, each of both calls", counts.cases, 50_000);
    at_least("answered 0", counts.done, 10_000);
    at_least("answered 2", counts.refused_2, 5_000);
    at_least("answered 9", counts.refused_9, 10_000);
    at_least("windows in the execution ROM", counts.execution, 5_000);
    at_least("windows in the bootstrap ROM", counts.bootstrap, 5_000);
    at_least("answered 2 where 9 applies too", counts.both, 500);
    at_least("answered 9 past 2^32", counts.past_32_bits, 1_000);
    at_least("answered 9 just behind a ROM", counts.just_behind, 300);
}
