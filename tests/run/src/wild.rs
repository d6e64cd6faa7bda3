//! Images that keep the rules and are random in all else.

use crate::dice::Dice;
use crate::fields::*;
use crate::lengths::Lengths;
use crate::valid::{valid, Case};

/// A valid image for a paper and a journal of these lengths.
pub fn fitted(dice: &mut Dice, lengths: &Lengths) -> Case {
    let mut case = valid(dice);
    case.eighth = lengths.paper / 8;
    case.slots = lengths.slots;
    for printer in 0..8 {
        let count = case.printer_mut(printer, PRINTER_COUNT);
        *count = (*count).min(lengths.paper / 8);
    }
    let (on_hand, next_slot) = match lengths.slots {
        0 => (0, 0),
        slots => (dice.between(0, slots), dice.below(slots)),
    };
    case.words[ON_HAND] = on_hand;
    case.words[NEXT_SLOT] = next_slot;
    case
}

pub fn image(dice: &mut Dice, lengths: &Lengths) -> Vec<u8> {
    fitted(dice, lengths).bytes()
}
