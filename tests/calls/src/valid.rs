//! Images that keep the rules, made field by field from document 01.

use crate::dice::Dice;
use crate::fields::*;

pub const MOST_PAPER: u32 = 65_536;
pub const MOST_SLOTS: u32 = 32_768;
pub const BUSY: u32 = 3;

/// An image with the lengths of paper and journal that it is judged with.
#[derive(Clone)]
pub struct Case {
    pub length_word: u32,
    pub version: u8,
    pub words: [u32; WORDS],
    /// The bytes of one printer's eighth of the paper.
    pub eighth: u32,
    /// The number of records that the journal has room for.
    pub slots: u32,
}

impl Case {
    pub fn bytes(&self) -> Vec<u8> {
        let mut bytes = Vec::with_capacity(IMAGE_BYTES);
        bytes.extend_from_slice(&self.length_word.to_be_bytes());
        bytes.push(self.version);
        for word in &self.words {
            bytes.extend_from_slice(&word.to_be_bytes());
        }
        bytes
    }

    pub fn paper(&self) -> u64 {
        u64::from(self.eighth) * 8
    }

    pub fn journal(&self) -> u64 {
        u64::from(self.slots) * RECORD_BYTES as u64
    }

    pub fn installed(&self, printer: usize) -> bool {
        self.words[INSTALLED] >> printer & 1 != 0
    }

    pub fn pending(&self, printer: usize) -> bool {
        self.words[PENDING] >> printer & 1 != 0
    }

    pub fn printer(&self, printer: usize, place: usize) -> u32 {
        self.words[PRINTERS + printer * PRINTER_WORDS + place]
    }

    pub fn printer_mut(&mut self, printer: usize, place: usize) -> &mut u32 {
        &mut self.words[PRINTERS + printer * PRINTER_WORDS + place]
    }

    pub fn busy(&self, printer: usize) -> bool {
        self.installed(printer) && self.printer(printer, PRINTER_STATUS) == BUSY
    }
}

/// Any word; none and all of its bits are on more often than by chance.
fn any_word(dice: &mut Dice) -> u32 {
    match dice.below(8) {
        0 => 0,
        1 => 0xFFFF_FFFF,
        2 => 1 << dice.below(32),
        _ => dice.word(),
    }
}

/// 0 to `highest`, with both ends and their neighbours more often than by chance.
fn up_to(dice: &mut Dice, highest: u32) -> u32 {
    match dice.below(8) {
        0 => 0,
        1 => highest,
        2 => highest.min(1),
        3 => highest.saturating_sub(1),
        _ => dice.between(0, highest),
    }
}

fn from_one_to(dice: &mut Dice, highest: u32) -> u32 {
    1 + up_to(dice, highest - 1)
}

pub fn valid(dice: &mut Dice) -> Case {
    let mut words = [0; WORDS];
    for word in &mut words[..PRINTERS] {
        *word = any_word(dice);
    }
    words[INDEX] &= 0x8000_3F00;
    words[RANDOM] = from_one_to(dice, 15) << 8;
    words[ENTRY_HI] &= 0xFFFF_FFC0;
    words[ENTRY_LO] &= 0xFFFF_FF00;
    words[STATUS] &= 0x1740_FF3F;
    for pair in 0..16 {
        words[TLB + 2 * pair] &= 0xFFFF_FFC0;
        words[TLB + 2 * pair + 1] &= 0xFFFF_FF00;
    }
    words[TIME_SCALE] = from_one_to(dice, 255);
    words[PRINTER_DELAY] = from_one_to(dice, 65_535);
    words[INSTALLED] = up_to(dice, 255);
    let mut case = Case {
        length_word: LENGTH_WORD,
        version: VERSION,
        words,
        eighth: up_to(dice, MOST_PAPER / 8),
        slots: up_to(dice, MOST_SLOTS),
    };
    fill_printers(dice, &mut case);
    fill_cause(dice, &mut case);
    fill_journal_place(dice, &mut case);
    fill_slot(dice, &mut case);
    case
}

fn fill_printers(dice: &mut Dice, case: &mut Case) {
    // Else nearly every image would have a pending printer.
    let none_pending = dice.chance(3);
    let installed = case.words[INSTALLED];
    for printer in (0..8).filter(|printer| installed >> printer & 1 != 0) {
        let status = dice.between(1, 4);
        *case.printer_mut(printer, PRINTER_STATUS) = status;
        if status == BUSY {
            let ticks = from_one_to(dice, case.words[PRINTER_DELAY]);
            *case.printer_mut(printer, PRINTER_COMMAND) = dice.pick(&[0, 2]);
            *case.printer_mut(printer, PRINTER_TICKS) = ticks;
        } else {
            let command = if dice.chance(2) { dice.below(5) } else { any_word(dice) };
            *case.printer_mut(printer, PRINTER_COMMAND) = command;
            if !none_pending && dice.chance(2) {
                case.words[PENDING] |= 1 << printer;
            }
        }
        *case.printer_mut(printer, PRINTER_DATA0) = any_word(dice);
        *case.printer_mut(printer, PRINTER_COUNT) = up_to(dice, case.eighth);
    }
}

/// BD, CE and IP[0] to IP[2] as they come, ExcCode 0 to 12, IP[6] as pending.
fn fill_cause(dice: &mut Dice, case: &mut Case) {
    let free = case.words[CAUSE] & 0xB000_0700;
    let code = up_to(dice, 12) << 2;
    let line_6 = if case.words[PENDING] != 0 { 1 << 14 } else { 0 };
    case.words[CAUSE] = free | code | line_6;
}

fn fill_journal_place(dice: &mut Dice, case: &mut Case) {
    case.words[ON_HAND] = up_to(dice, case.slots);
    case.words[NEXT_SLOT] = if case.slots == 0 { 0 } else { up_to(dice, case.slots - 1) };
}

fn fill_slot(dice: &mut Dice, case: &mut Case) {
    if dice.chance(2) {
        case.words[SLOT_FLAG] = 1;
        case.words[BRANCH_ADDRESS] = any_word(dice);
    }
}
