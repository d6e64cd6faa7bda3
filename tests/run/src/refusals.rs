//! Refusals 1 to 6: the lowest number that applies, and no byte changed.

use crate::breaches::BREACHES;
use crate::dice::Dice;
use crate::fields::IMAGE_BYTES;
use crate::pool::Pool;
use crate::refused::{image, lent, one, with_values, wrong_rows, Counts};
use crate::report::at_least;
use crate::wrong::*;

const MOST_STEPS: u64 = 1_000_000;

/// Each value of each, long buffers too, beside right ones.
fn edges(dice: &mut Dice, pool: &Pool, counts: &mut Counts) {
    for (place, choices) in CHOICES.iter().enumerate() {
        for value in choices.right.iter().chain(choices.wrong) {
            let long = *value > 1_000_000 && place != BUDGET;
            for _ in 0..if long { 1 } else { 20 } {
                let mut values = values(dice, 0);
                values[place] = *value;
                with_values(dice, pool, &values, counts);
            }
            counts.edges += 1;
        }
        println!("  {}: done with {:?}", choices.name, choices.right);
        println!("  {}: {} with {:?}", choices.name, choices.row, choices.wrong);
    }
}

/// All 128 ways to have some of the seven wrong.
fn combinations(dice: &mut Dice, pool: &Pool, counts: &mut Counts) {
    for wrong in 0..128 {
        for _ in 0..80 {
            let values = values(dice, wrong);
            with_values(dice, pool, &values, counts);
        }
        counts.combinations += 1;
    }
}

/// Each rule of the image broken alone, with the rest right and with some of
/// the rest wrong: the lower number or 5.
fn broken_images(dice: &mut Dice, pool: &Pool, counts: &mut Counts) {
    for turn in 0..40_000 {
        let wrong =
            if turn / BREACHES.len() % 2 == 0 { 0 } else { dice.below(128) & !(1 << IMAGE) };
        let values = values(dice, wrong);
        let which = turn % BREACHES.len();
        let (name, breach) = &BREACHES[which];
        let mut case = image(dice, &values);
        if !breach(&mut case, dice) {
            continue;
        }
        let mut rows = wrong_rows(&values);
        rows.push(5);
        rows.sort_unstable();
        let call = lent(dice, pool, &values, case.bytes());
        one(&call, &rows, &format!("{name}, lengths and budget {values:?}"), counts);
        counts.breaches[which] += u64::from(rows == [5]);
    }
}

/// Any 64-bit number; many would be right in their low half alone.
fn budgets(dice: &mut Dice, pool: &Pool, counts: &mut Counts) {
    for turn in 0..2_000 {
        let mut values = values(dice, 0);
        let low = u64::from(dice.below(1_000_001));
        values[BUDGET] =
            if turn % 2 == 0 { dice.any_size() } else { low | 1 << dice.between(32, 63) };
        let image = image(dice, &values).bytes();
        let mut call = lent(dice, pool, &values, image);
        call.stop = 1;
        let rows: &[u8] = if call.budget > MOST_STEPS { &[6] } else { &[] };
        one(&call, rows, &format!("budget {}", call.budget), counts);
    }
}

fn lengths_of_image(dice: &mut Dice, pool: &Pool, counts: &mut Counts) {
    for length in 0..=600 {
        let values = values(dice, 0);
        let mut image = image(dice, &values).bytes();
        image.resize(length, 0);
        let rows: &[u8] = if length == IMAGE_BYTES { &[] } else { &[5] };
        let call = lent(dice, pool, &values, image);
        one(&call, rows, &format!("an image of {length} bytes"), counts);
    }
}

pub fn compare(seed: u64, dice: &mut Dice) {
    let pool = Pool::new(dice);
    let mut counts = Counts { seed, breaches: vec![0; BREACHES.len()], ..Counts::default() };
    println!("refusals: every value alone, and its number");
    edges(dice, &pool, &mut counts);
    combinations(dice, &pool, &mut counts);
    broken_images(dice, &pool, &mut counts);
    lengths_of_image(dice, &pool, &mut counts);
    budgets(dice, &pool, &mut counts);
    println!("refusals: rules of the image broken alone");
    for (count, (name, _)) in counts.breaches.iter().zip(&BREACHES) {
        at_least(name, *count, 10);
    }
    println!("refusals: all");
    at_least("values, each alone", counts.edges, 110);
    at_least("combinations of wrong things, of 128", counts.combinations, 128);
    for (number, count) in counts.by_number.iter().enumerate() {
        at_least(format!("answered {number}"), *count, 500);
    }
    at_least("answered the lowest of several", counts.several, 5_000);
}
