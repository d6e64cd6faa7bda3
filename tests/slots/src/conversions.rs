//! Conversions of images of the version before: the archive's answer and every
//! byte beside the reference's, and beside what is due.

use crate::breaches::BREACHES;
use crate::dice::Dice;
use crate::fields::*;
use crate::guarded::Guarded;
use crate::lending;
use crate::lengths::Lengths;
use crate::met::Met;
use crate::pool::Pool;
use crate::report::unpacked;
use crate::valid::Case;
use crate::wild::fitted;

const MOST_LINES: usize = 12;

pub const SORTS: [&str; 8] = [
    "random bytes",
    "random words under the right head",
    "valid images",
    "valid but for one to three bits",
    "a rule broken alone",
    "lengths of the two images",
    "rows 3, 4 and 5 in all ways",
    "images of the first version",
];

struct Conversion {
    old: Vec<u8>,
    image_bytes: usize,
    paper: usize,
    journal: usize,
    /// The number that is due, where it is known without the reference.
    due: Option<u64>,
}

fn lengths(dice: &mut Dice) -> Lengths {
    let paper = match dice.below(500) {
        0 => 65_536,
        _ => dice.pick(&[0, 8, 8, 16, 64, 800]),
    };
    // Of the old length: half of these journals have no whole number of new ones.
    let slots = match dice.below(4_000) {
        0 => 65_536,
        _ => dice.pick(&[0, 1, 2, 3, 16, 17]),
    };
    Lengths { ram: 4_096, execution: 4, bootstrap: 4, paper, slots }
}

/// The old image of the same words; what was wrong with the head stays wrong.
fn old_bytes(case: &Case) -> Vec<u8> {
    let length_word = case.length_word.wrapping_sub(LENGTH_WORD).wrapping_add(OLD_LENGTH_WORD);
    let version = case.version.wrapping_sub(VERSION).wrapping_add(OLD_VERSION);
    let mut bytes = head(length_word, version).to_vec();
    bytes.extend(case.words[..DISKS_INSTALLED].iter().flat_map(|word| word.to_be_bytes()));
    bytes
}

fn valid(dice: &mut Dice) -> (Case, Conversion) {
    let lengths = lengths(dice);
    let case = fitted(dice, &lengths);
    let conversion = Conversion {
        old: old_bytes(&case),
        image_bytes: IMAGE_BYTES,
        paper: lengths.paper as usize,
        journal: OLD_RECORD_BYTES * lengths.slots as usize,
        due: Some(0),
    };
    (case, conversion)
}

fn random_bytes(dice: &mut Dice, right_head: bool) -> Conversion {
    let (_, mut conversion) = valid(dice);
    conversion.old = dice.bytes(OLD_IMAGE_BYTES);
    if right_head {
        conversion.old[..FIRST_WORD].copy_from_slice(&head(OLD_LENGTH_WORD, OLD_VERSION));
    }
    conversion.due = None;
    conversion
}

fn bits_changed(dice: &mut Dice) -> Conversion {
    let (_, mut conversion) = valid(dice);
    for _ in 0..dice.between(1, 3) {
        let bit = dice.below(OLD_IMAGE_BYTES as u32 * 8) as usize;
        conversion.old[bit / 8] ^= 1 << (bit % 8);
    }
    conversion.due = None;
    conversion
}

/// The rules of the disks are none of the old image's.
fn broken(dice: &mut Dice, met: &mut Met) -> Conversion {
    loop {
        let (mut case, mut conversion) = valid(dice);
        let which = dice.below(BREACHES.len() as u32) as usize;
        let (_, breach) = &BREACHES[which];
        if breach(&mut case, dice) && old_bytes(&case) != conversion.old {
            met.breaches[which] += 1;
            conversion.old = old_bytes(&case);
            conversion.due = Some(5);
            return conversion;
        }
    }
}

fn other_length(dice: &mut Dice) -> Conversion {
    let (_, mut conversion) = valid(dice);
    let length = match dice.below(3) {
        0 => dice.pick(&[0, 4, 5, OLD_IMAGE_BYTES - 1, OLD_IMAGE_BYTES + 1, IMAGE_BYTES - 4]),
        1 => dice.pick(&[OLD_IMAGE_BYTES, IMAGE_BYTES, IMAGE_BYTES - 1, IMAGE_BYTES + 1]),
        _ => dice.below(800) as usize,
    };
    let right = if dice.chance(2) {
        conversion.old.resize(length, 0);
        length == OLD_IMAGE_BYTES
    } else {
        conversion.image_bytes = length;
        length == IMAGE_BYTES
    };
    conversion.due = Some(if right { 0 } else { 5 });
    conversion
}

const WRONG_PAPER: [usize; 8] = [1, 4, 7, 9, 12, 65_537, 65_544, 131_072];
const WRONG_JOURNAL: [usize; 7] = [1, 8, 128, 255, 257, 384, 511];
const LONG_JOURNAL: usize = 16_777_216 + 256;

/// Bit 0 makes paper wrong, 1 the journal, 2 the old image, 3 the new one.
fn rows(dice: &mut Dice, met: &mut Met) -> Conversion {
    let (_, mut conversion) = valid(dice);
    let wrong = dice.below(16);
    met.rows[wrong as usize] += 1;
    if wrong & 1 != 0 {
        conversion.paper = dice.pick(&WRONG_PAPER);
    }
    if wrong & 2 != 0 {
        let long = dice.chance(4_000);
        conversion.journal = if long { LONG_JOURNAL } else { dice.pick(&WRONG_JOURNAL) };
    }
    if wrong & 4 != 0 {
        conversion.old[FIRST_WORD - 1] = dice.pick(&[0, OLD_VERSION - 1, VERSION, VERSION + 1]);
    }
    if wrong & 8 != 0 {
        conversion.image_bytes = dice.pick(&[0, OLD_IMAGE_BYTES, IMAGE_BYTES - 1, IMAGE_BYTES + 1]);
    }
    conversion.due = Some(match wrong {
        0 => 0,
        _ if wrong & 1 != 0 => 3,
        _ if wrong & 2 != 0 => 4,
        _ => 5,
    });
    conversion
}

/// The first version had no slot. It is converted no more, whatever it holds.
fn first_version(dice: &mut Dice) -> Conversion {
    let (_, mut conversion) = valid(dice);
    let bytes = FIRST_WORD + 4 * SLOT_FLAG;
    conversion.old.truncate(bytes);
    conversion.old[..FIRST_WORD].copy_from_slice(&head(bytes as u32 - 4, OLD_VERSION - 1));
    conversion.due = Some(5);
    conversion
}

fn conversion(dice: &mut Dice, sort: usize, met: &mut Met) -> Conversion {
    match sort {
        0 | 1 => random_bytes(dice, sort == 1),
        2 => valid(dice).1,
        3 => bits_changed(dice),
        4 => broken(dice, met),
        5 => other_length(dice),
        6 => rows(dice, met),
        _ => first_version(dice),
    }
}

/// What a done conversion has to leave, composed here.
fn due_image(old: &[u8]) -> Vec<u8> {
    let mut image = head(LENGTH_WORD, VERSION).to_vec();
    image.extend_from_slice(&old[FIRST_WORD..]);
    image.resize(IMAGE_BYTES, 0);
    clear_journal_place(&mut image);
    image
}

fn word(old: &[u8], place: usize) -> u32 {
    let four = &old[FIRST_WORD + 4 * place..][..4];
    u32::from_be_bytes([four[0], four[1], four[2], four[3]])
}

fn count(conversion: &Conversion, number: u64, met: &mut Met) {
    met.converted[number as usize] += 1;
    if number == 0 {
        met.had_steps += u64::from(word(&conversion.old, ON_HAND) != 0);
        met.had_next_slot += u64::from(word(&conversion.old, NEXT_SLOT) != 0);
        met.had_slot += u64::from(word(&conversion.old, SLOT_FLAG) != 0);
        met.odd_journals += u64::from(conversion.journal % RECORD_BYTES != 0);
        met.had_bd += u64::from(word(&conversion.old, CAUSE) >> 31 != 0);
    }
}

fn compare(conversion: &Conversion, pool: &Pool, dice: &mut Dice) -> Result<u64, Vec<String>> {
    let before = pool.bytes(dice, conversion.image_bytes);
    let old = Guarded::new(&conversion.old);
    let (paper, journal) = (vec![0x5A; conversion.paper], vec![0xA5; conversion.journal]);
    let (paper, journal) = (Guarded::new(&paper), Guarded::new(&journal));
    let mut ours = Guarded::new(&before);
    let answer =
        lending::convert(old.content(), ours.content_mut(), paper.content(), journal.content());
    let mut theirs = before.clone();
    let reference =
        reference::convert(old.content(), &mut theirs, paper.content(), journal.content()).packed();
    let mut lines = Vec::new();
    if answer != reference {
        lines.push(format!("archive:   {}", unpacked(answer)));
        lines.push(format!("reference: {}", unpacked(reference)));
    }
    for (name, buffer) in [("old image", &old), ("paper", &paper), ("journal", &journal)] {
        lines.extend(buffer.touched().map(|what| format!("{name}: {what}")));
    }
    lines.extend(ours.guards_hurt().map(|what| format!("new image: {what}")));
    let pairs = ours.content().iter().zip(&theirs).enumerate();
    for (place, (our, their)) in pairs.filter(|(_, (our, their))| our != their).take(MOST_LINES) {
        let name = byte_name(place);
        lines.push(format!("{name}: archive {our:#04x}, reference {their:#04x}"));
    }
    let due = if reference == 0 { due_image(&conversion.old) } else { before };
    if theirs != due {
        lines.push("the reference has not left what is due".to_string());
    }
    if conversion.due.map_or(false, |number| number != reference) {
        lines.push(format!("due is {:?}, the reference answered {reference}", conversion.due));
    }
    if lines.is_empty() {
        Ok(reference)
    } else {
        let Conversion { image_bytes, paper, journal, .. } = conversion;
        lines.push(format!("old {}, new {image_bytes} bytes", conversion.old.len()));
        lines.push(format!("paper {paper}, journal {journal} bytes"));
        Err(lines)
    }
}

pub fn one(dice: &mut Dice, pool: &Pool, met: &mut Met) -> Result<(), Vec<String>> {
    let sort = dice.below(SORTS.len() as u32) as usize;
    met.conversions += 1;
    met.sorts[sort] += 1;
    let conversion = conversion(dice, sort, met);
    let number = compare(&conversion, pool, dice)
        .map_err(|lines| [vec![SORTS[sort].to_string()], lines].concat())?;
    count(&conversion, number, met);
    Ok(())
}
