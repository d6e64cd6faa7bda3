//! Random runs: the archive's answer and every byte beside the reference's.

use crate::dice::Dice;
use crate::fields::{head, BRANCH_ADDRESS, SLOT_FLAG};
use crate::fields::{FIRST_WORD, OLD_IMAGE_BYTES, OLD_LENGTH_WORD, OLD_VERSION};
use crate::met::Met;
use crate::pool::Pool;
use crate::scene::scene;
use crate::sides::Sides;
use crate::sight::watch;
use reference::Answer;

pub const SPOILED: [&str; 4] = [
    "a slot flag over 1",
    "a branch address without the flag",
    "an image of the version before",
    "an image with the version byte before",
];

fn put(image: &mut [u8], word: usize, value: u32) {
    image[FIRST_WORD + 4 * word..][..4].copy_from_slice(&value.to_be_bytes());
}

/// Breaks one rule of the slot, or gives the image an old look.
fn spoil(dice: &mut Dice, image: &mut Vec<u8>, which: usize) {
    match which {
        0 => put(image, SLOT_FLAG, dice.pick(&[2, 3, 0x100, 1 << 31, u32::MAX])),
        1 => {
            put(image, SLOT_FLAG, 0);
            put(image, BRANCH_ADDRESS, 1 << dice.below(32));
        }
        2 => {
            image.truncate(OLD_IMAGE_BYTES);
            image[..FIRST_WORD].copy_from_slice(&head(OLD_LENGTH_WORD, OLD_VERSION));
        }
        _ => image[FIRST_WORD - 1] = OLD_VERSION,
    }
}

pub fn one(dice: &mut Dice, pool: &Pool, met: &mut Met) -> Result<(), Vec<String>> {
    let mut call = scene(dice, pool);
    if dice.chance(32) {
        let which = dice.below(SPOILED.len() as u32) as usize;
        spoil(dice, &mut call.image, which);
        met.spoiled[which] += 1;
        let (budget, stop) = (call.budget, call.stop);
        let answer = Sides::new(call).run(budget, stop)?;
        return if answer == Answer::refused(5) {
            Ok(())
        } else {
            Err(vec![format!("{}: both answered {answer:?}", SPOILED[which])])
        };
    }
    let mut sides = Sides::new(call.clone());
    met.begin(&sides.machine());
    let answer = sides.run(call.budget, call.stop)?;
    assert_eq!(answer.number, 0, "the scene keeps the rules");
    met.ran(answer);
    if let Some((machine, access)) = watch(&call, answer, |sight| met.see(sight))? {
        met.halted(&machine, access);
    }
    met.end(&sides.machine());
    Ok(())
}
