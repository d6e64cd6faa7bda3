//! The rules of the state image: the archive's verdicts beside the reference's.

use crate::breaches::BREACHES;
use crate::dice::Dice;
use crate::edges::{words_for, PLACES};
use crate::fields::*;
use crate::judge::Judge;
use crate::one_bit::OneBitCounts;
use crate::report::at_least;
use crate::seen::Seen;
use crate::valid::{valid, Case};

const LEAST_IMAGES: u64 = 1_000_000;

/// Random bytes: nearly all fall at the length word, so that half of them are
/// given a right head.
fn random_images(dice: &mut Dice, judge: &mut Judge) {
    for turn in 0..60_000 {
        let mut bytes = dice.bytes(IMAGE_BYTES);
        if turn % 2 == 1 {
            bytes[..FIRST_WORD].copy_from_slice(&head(LENGTH_WORD, VERSION));
        }
        let like = valid(dice);
        judge.verdict(&bytes, like.paper(), like.journal(), None, &|| "random".to_string());
    }
}

fn valid_images(dice: &mut Dice, judge: &mut Judge) -> Seen {
    let mut seen = Seen::default();
    for _ in 0..300_000 {
        let case = valid(dice);
        seen.add(&case);
        judge.case(&case, Some(true), &|| "made within the rules".to_string());
    }
    seen
}

fn some_bits_changed(dice: &mut Dice, judge: &mut Judge) {
    for turn in 0..200_000 {
        let case = valid(dice);
        let mut bytes = case.bytes();
        let changed: Vec<usize> =
            (0..2 + turn % 2).map(|_| dice.below(IMAGE_BITS as u32) as usize).collect();
        for bit in &changed {
            bytes[bit / 8] ^= 1 << (bit % 8);
        }
        judge.verdict(&bytes, case.paper(), case.journal(), None, &|| {
            let names: Vec<String> = changed.iter().map(|bit| byte_name(bit / 8)).collect();
            format!("valid but for bits {changed:?} in {names:?}")
        });
    }
}

/// Each word of the image in turn holds each edge value.
fn one_word_replaced(dice: &mut Dice, judge: &mut Judge) {
    for _ in 0..20 {
        for place in PLACES {
            let case = valid(dice);
            for value in words_for(&case, place) {
                let mut bytes = case.bytes();
                bytes[place..place + 4].copy_from_slice(&value.to_be_bytes());
                judge.verdict(&bytes, case.paper(), case.journal(), None, &|| {
                    format!("valid but for word {value:#010x} at {}", byte_name(place))
                });
            }
        }
        for version in 0..=255 {
            let case = Case { version, ..valid(dice) };
            let kept = Some(version == VERSION);
            judge.case(&case, kept, &|| format!("valid but for version {version}"));
        }
    }
}

/// Each rule broken alone; the verdict is known beforehand.
fn breaches(dice: &mut Dice, judge: &mut Judge) -> Vec<u64> {
    let mut counts = vec![0; BREACHES.len()];
    for (count, (name, breach)) in counts.iter_mut().zip(&BREACHES) {
        for _ in 0..8_000 {
            let mut case = valid(dice);
            if breach(&mut case, dice) {
                *count += 1;
                judge.case(&case, Some(false), &|| format!("valid but for {name}"));
            }
        }
    }
    counts
}

/// An image that keeps the rules, but has a disk, which the archive has not yet.
fn disks(dice: &mut Dice, judge: &mut Judge) {
    for turn in 0..1_000 {
        let (mut case, number) = (valid(dice), turn % 8);
        case.words[DISKS_INSTALLED] = 1 << number;
        case.words[DISKS + DISK_WORDS * number + DISK_STATUS] = 1;
        judge.case(&case, Some(false), &|| format!("valid but for disk {number}"));
    }
}

/// All lengths, as the start of a valid image or with bytes behind it.
fn lengths(dice: &mut Dice, judge: &mut Judge) -> u64 {
    let mut met = 0;
    for length in 0..=800 {
        for turn in 0..20 {
            let case = valid(dice);
            let mut bytes = if turn % 4 == 0 { dice.bytes(length) } else { case.bytes() };
            let filler = dice.pick(&[0, 1, 255]);
            bytes.resize(length, filler);
            let expected = if turn % 4 == 0 { None } else { Some(length == IMAGE_BYTES) };
            judge.verdict(&bytes, case.paper(), case.journal(), expected, &|| {
                "of another length".to_string()
            });
        }
        met += 1;
    }
    met
}

pub fn compare(dice: &mut Dice) {
    let mut judge = Judge::default();
    random_images(dice, &mut judge);
    let seen = valid_images(dice, &mut judge);
    let one_bit = OneBitCounts::taken(dice, &mut judge);
    some_bits_changed(dice, &mut judge);
    one_word_replaced(dice, &mut judge);
    let breach_counts = breaches(dice, &mut judge);
    disks(dice, &mut judge);
    let lengths = lengths(dice, &mut judge);
    seen.report();
    one_bit.report();
    println!("rules: each rule broken alone");
    for (count, (name, _)) in breach_counts.iter().zip(&BREACHES) {
        at_least(name, *count, 500);
    }
    println!("rules: all");
    at_least("lengths, of 801", lengths, 801);
    at_least("images", judge.images, LEAST_IMAGES);
    at_least("images that kept the rules", judge.kept, LEAST_IMAGES / 3);
    at_least("images that broke a rule", judge.broke, LEAST_IMAGES / 3);
}
