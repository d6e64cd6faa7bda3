//! Conversion of images of the version before.

mod common;

use common::dice::Dice;
use common::states::random_bench_with_slots;
use common::*;
use reference::{convert, keeps_rules, Answer, IMAGE_BYTES, OLD_IMAGE_BYTES};

/// Where the words stand, in both versions.
fn word_at(image: &[u8], number: usize) -> u32 {
    u32::from_be_bytes(image[5 + 4 * number..][..4].try_into().unwrap())
}

/// The old image of a machine: without the words of the disks, under the old head.
fn old_image(bench: &Bench) -> Vec<u8> {
    let mut image = bench.image();
    image.truncate(509);
    image[..5].copy_from_slice(&[0, 0, 1, 0xF9, 2]);
    image
}

fn answer_of(old: &[u8], image_len: usize, paper: usize, journal: usize) -> Answer {
    let mut image = vec![0xEE; image_len];
    let answer = convert(old, &mut image, &vec![1; paper], &vec![2; journal]);
    assert_eq!(image.iter().all(|&byte| byte == 0xEE), answer.number != 0);
    answer
}

/// Slots of an old journal are half as long as those of today.
const OLD_SLOT: usize = 256;

#[test]
fn all_words_stay_but_on_hand_and_next_slot() {
    let mut dice = Dice::new(71);
    let (mut with_steps, mut elsewhere, mut odd) = (0, 0, 0);
    for _ in 0..2_000 {
        let slots = dice.pick(&[0, 1, 2, 17]);
        let mut bench = random_bench_with_slots(&mut dice, slots);
        bench.machine.on_hand = dice.below(slots + 1);
        bench.journal.truncate(OLD_SLOT * slots as usize);
        let old = old_image(&bench);
        let mut image = vec![0xEE; IMAGE_BYTES];
        let (paper, journal) = (bench.paper.clone(), bench.journal.clone());
        assert_eq!(convert(&old, &mut image, &paper, &journal), Answer::done(0, 0));
        assert!(paper == bench.paper && journal == bench.journal);
        // With any journal of today, none too.
        assert!(keeps_rules(&image, 4_096, paper.len(), 0));
        assert_eq!(image[..5], [0, 0, 2, 0xE1, 3]);
        for number in 0..126 {
            let expected = if matches!(number, 122 | 123) { 0 } else { word_at(&old, number) };
            assert_eq!(word_at(&image, number), expected, "word {number}");
        }
        assert!((126..184).all(|number| word_at(&image, number) == 0));
        with_steps += u32::from(bench.machine.on_hand != 0);
        elsewhere += u32::from(bench.machine.next_slot != 0);
        odd += slots % 2;
    }
    println!("{with_steps} had steps on hand, {elsewhere} a next slot, {odd} an odd journal");
    assert!(with_steps >= 500 && elsewhere >= 500 && odd >= 500);
}

#[test]
fn the_lowest_refusal_is_answered() {
    let bench = Bench::new();
    let good = old_image(&bench);
    let mut bad = good.clone();
    bad[4] = 1;
    for paper in [0, 32, 7, 65_544] {
        for journal in [0, 256, 768, 1_024, 255, 16_777_216, 16_777_472] {
            for old in [&good, &bad] {
                for image_len in [IMAGE_BYTES, OLD_IMAGE_BYTES, 0, IMAGE_BYTES + 1] {
                    let number = if paper % 8 != 0 || paper > 65_536 {
                        3
                    } else if journal % OLD_SLOT != 0 || journal > 16_777_216 {
                        4
                    } else if old == &bad || image_len != IMAGE_BYTES {
                        5
                    } else {
                        0
                    };
                    assert_eq!(answer_of(old, image_len, paper, journal).number, number);
                }
            }
        }
    }
}

#[test]
fn lengths_and_heads_of_the_old_image() {
    let bench = Bench::new();
    let good = old_image(&bench);
    assert_eq!((good.len(), OLD_IMAGE_BYTES), (509, 509));
    assert_eq!(answer_of(&good, IMAGE_BYTES, 32, 0), Answer::done(0, 0));
    for length in [0, 4, 5, 501, 508] {
        assert_eq!(answer_of(&good[..length], IMAGE_BYTES, 32, 0), Answer::refused(5));
    }
    for longer in [510, 513, 741] {
        let mut old = good.clone();
        old.resize(longer, 0);
        assert_eq!(answer_of(&old, IMAGE_BYTES, 32, 0), Answer::refused(5));
    }
    // Neither the present version nor the first one is converted.
    assert_eq!(answer_of(&bench.image(), IMAGE_BYTES, 32, 0), Answer::refused(5));
    let mut first = good[..501].to_vec();
    first[..5].copy_from_slice(&[0, 0, 1, 0xF1, 1]);
    assert_eq!(answer_of(&first, IMAGE_BYTES, 32, 0), Answer::refused(5));
    for place in 0..5 {
        for bit in 0..8 {
            let mut old = good.clone();
            old[place] ^= 1 << bit;
            assert_eq!(answer_of(&old, IMAGE_BYTES, 32, 0), Answer::refused(5));
        }
    }
}

/// Row 5 of an old image is row 5 of the same words in the present version, beside
/// a journal of as many slots.
#[test]
fn old_images_are_judged_as_new_ones() {
    let mut dice = Dice::new(72);
    let mut met = [0; 2];
    for _ in 0..6_000 {
        let slots = dice.pick(&[0, 1, 17]);
        let mut bench = random_bench_with_slots(&mut dice, slots);
        let mut old = old_image(&bench);
        let mut new = bench.image();
        for _ in 0..1 + dice.below(2) {
            let (place, bit) = (5 + dice.below(504) as usize, dice.below(8));
            old[place] ^= 1 << bit;
            new[place] ^= 1 << bit;
        }
        bench.journal.truncate(OLD_SLOT * slots as usize);
        let (paper, journal) = (bench.paper.len(), bench.journal.len());
        let kept = keeps_rules(&new, 4_096, paper, 2 * journal);
        let number = answer_of(&old, IMAGE_BYTES, paper, journal).number;
        assert_eq!(number, if kept { 0 } else { 5 });
        met[usize::from(kept)] += 1;
    }
    println!("{} refused, {} done", met[0], met[1]);
    assert!(met.iter().all(|&count| count >= 1_000));
}
