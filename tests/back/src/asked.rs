//! A take-back that is as wrong as it is to be: its lengths, its count, its
//! records.

use crate::call::Call;
use crate::dice::Dice;
use crate::fields::{NEXT_SLOT, ON_HAND};
use crate::lengths::Lengths;
use crate::lent::empty_index;
use crate::pool::Pool;
use crate::record::{newest, plain, set, KIND, SLOT_FLAG, UNUSED};
use crate::valid::Case;
use crate::wild::fitted;
use crate::wrong::{Choices, CHOICES, IMAGE, JOURNAL, PAPER, RAM};
use reference::decode;
use reference::layout::RECORD_BYTES;

/// What can be wrong, a bit for each, and its number.
pub const ROWS: [(&str, u8); 6] =
    [("RAM", 1), ("paper", 3), ("journal", 4), ("image", 5), ("steps", 7), ("a record", 8)];
const WRONG_STEPS: u32 = 1 << 4;
const WRONG_RECORD: u32 = 1 << 5;

/// The four lengths, in the order of their numbers.
pub const LENGTHS: [&Choices; 4] =
    [&CHOICES[RAM], &CHOICES[PAPER], &CHOICES[JOURNAL], &CHOICES[IMAGE]];

/// A call with its count, and the lengths that are lent.
pub struct Asked {
    pub lengths: [u64; 4],
    pub case: Case,
    /// The slots of wrong records, each of one that is on hand.
    pub records: Vec<usize>,
    pub steps: u64,
}

/// Cheap lengths; bit k of `wrong` makes the k-th a wrong one.
pub fn lengths(dice: &mut Dice, wrong: u32) -> [u64; 4] {
    let mut lengths = [0; 4];
    for (place, choices) in LENGTHS.iter().enumerate() {
        let (right, not) = choices.cheap;
        lengths[place] = if wrong >> place & 1 != 0 {
            dice.pick(&choices.wrong[..not])
        } else {
            dice.pick(&choices.right[..right])
        };
    }
    lengths
}

/// An image that keeps the rules with these lengths, and a count that is as
/// wrong as it is to be. There are records on hand wherever there are slots.
pub fn asked(dice: &mut Dice, lengths: [u64; 4], wrong: u32) -> Asked {
    let [_, paper, journal, _] = lengths;
    let slots = (journal as usize / RECORD_BYTES).min(32_768) as u32;
    let paper = paper.min(65_536) as u32;
    let lent = Lengths { ram: 4_096, execution: 4, bootstrap: 4, paper: paper / 8 * 8, slots };
    let mut case = fitted(dice, &lent);
    let on_hand = if slots == 0 { 0 } else { dice.between(1, slots) };
    case.words[ON_HAND] = on_hand;
    let most = u64::from(on_hand);
    let steps = if wrong & WRONG_STEPS != 0 {
        let beyond = dice.pick(&[1 << 32, 1 << 63, u64::MAX, (1 << 32) + most, most + 2]);
        dice.pick(&[most + 1, most + 1, beyond])
    } else if wrong & WRONG_RECORD != 0 && on_hand > 0 {
        u64::from(dice.between(1, on_hand))
    } else {
        let any = u64::from(dice.between(0, on_hand));
        dice.pick(&[0, most, any])
    };
    // Any one of those asked for.
    let mut records = Vec::new();
    if wrong & WRONG_RECORD != 0 && on_hand > 0 {
        let ages = steps.min(most).max(1) as u32;
        let any = dice.between(1, ages);
        let age = dice.pick(&[1, any, ages]);
        let next_slot = case.words[NEXT_SLOT];
        records.extend(newest(next_slot, slots as usize, age as usize).last());
    }
    Asked { lengths, case, records, steps }
}

/// The buffers: every slot a record of this very image, but for the wrong ones.
pub fn lent(dice: &mut Dice, pool: &Pool, asked: &Asked) -> Call {
    let [ram, paper, journal, image] = asked.lengths.map(|length| length as usize);
    let mut image_bytes = asked.case.bytes();
    let record = plain(&decode(&image_bytes));
    let mut journal = pool.bytes(dice, journal);
    for slot in journal.chunks_exact_mut(RECORD_BYTES) {
        slot.copy_from_slice(&record);
    }
    for slot in &asked.records {
        let place = dice.pick(&[KIND, SLOT_FLAG, UNUSED]);
        set(&mut journal[RECORD_BYTES * slot..][..RECORD_BYTES], place, 1 << dice.between(2, 31));
    }
    image_bytes.resize(image, 0);
    Call {
        image: image_bytes,
        execution: Vec::new(),
        bootstrap: Vec::new(),
        ram: pool.bytes(dice, ram),
        paper: pool.bytes(dice, paper),
        journal,
        index: empty_index(ram),
        budget: 0,
        stop: 0,
    }
}

/// The numbers that apply. A wrong record needs one on hand.
pub fn rows(wrong: u32, asked: &Asked) -> Vec<u8> {
    let holds = |place: usize| match place {
        5 => !asked.records.is_empty(),
        _ => wrong >> place & 1 != 0,
    };
    (0..6).filter(|place| holds(*place)).map(|place| ROWS[place].1).collect()
}
