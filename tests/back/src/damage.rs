//! Ways to damage a record: bits, whole records, and plausible fields. Some
//! leave it well formed, and what it then says has to be given back.

use crate::dice::Dice;
use crate::judge::Judge;
use crate::record::*;

/// A record to be damaged, with what it is judged by and any other record of
/// the same journal.
pub struct Spot<'a> {
    pub record: &'a mut [u8],
    pub other: &'a [u8],
    pub judge: Judge,
}

pub type Damage = (&'static str, fn(&mut Spot, &mut Dice));

pub const DAMAGES: [Damage; 49] = [
    ("one bit", |spot, dice| bits(spot, dice, 1)),
    ("two bits", |spot, dice| bits(spot, dice, 2)),
    ("three bits", |spot, dice| bits(spot, dice, 3)),
    ("random bytes", |spot, dice| {
        let bytes = dice.bytes(RECORD_BYTES);
        spot.record.copy_from_slice(&bytes);
    }),
    ("all bits alike", |spot, dice| {
        let byte = dice.pick(&[0, 0xFF]);
        spot.record.fill(byte);
    }),
    ("another slot's record", |spot, _| spot.record.copy_from_slice(spot.other)),
    ("one word of another record", |spot, dice| {
        let place = dice.below(WORDS as u32) as usize;
        spot.set(place, word(spot.other, place));
    }),
    ("shifted by a word", |spot, _| spot.record.rotate_left(4)),
    ("a random word", |spot, dice| spot.set(dice.below(WORDS as u32) as usize, dice.word())),
    ("a word that no rule looks at", |spot, dice| spot.set(dice.pick(&FREE), dice.word())),
    ("a word that holds nothing", |spot, dice| {
        let place = dice.between(UNUSED as u32, WORDS as u32 - 1);
        spot.set(place as usize, 1 << dice.below(32));
    }),
    ("a slot flag alone", |spot, dice| {
        spot.set(SLOT_FLAG, dice.pick(&[0, 1, 2, 3, 0x100, 0x101, 1 << 31, u32::MAX]));
    }),
    ("a slot flag and a branch address", |spot, dice| {
        spot.set(SLOT_FLAG, dice.pick(&[0, 0, 1, 1, 1, 2]));
        let any = dice.word();
        spot.set(BRANCH_ADDRESS, dice.pick(&[0, 1, 4, 1 << 31, u32::MAX, any]));
    }),
    ("a kind alone", |spot, dice| {
        spot.set(KIND, dice.pick(&[0, 1, 2, 3, 4, 5, 6, 0x100, 0x104, 1 << 31, u32::MAX]));
    }),
    ("nothing, as it should be", |spot, _| spot.kind(NOTHING, 0, 0, 0)),
    ("nothing, with a word", |spot, dice| {
        let mut words = [0; 3];
        words[dice.below(3) as usize] = 1 << dice.below(32);
        spot.kind(NOTHING, words[0], words[1], words[2]);
    }),
    ("another register", |spot, dice| {
        spot.kind(REGISTER, dice.between(1, 31), dice.word(), 0);
    }),
    ("a register's number at its ends", |spot, dice| {
        let numbers = [0, 1, 31, 32, 33, 63, 0x101, 0x1_0001, 1 << 31, u32::MAX];
        spot.kind(REGISTER, dice.pick(&numbers), dice.word(), 0);
    }),
    ("a register with a word too many", |spot, dice| {
        spot.kind(REGISTER, dice.between(1, 31), dice.word(), 1 << dice.below(32));
    }),
    ("another row", |spot, dice| {
        let (high, low) = (dice.word() & 0xFFFF_FFC0, dice.word() & 0xFFFF_FF00);
        spot.kind(ROW, dice.below(16), high, low);
    }),
    ("a row's index at its end", |spot, dice| {
        let (high, low) = (dice.word() & 0xFFFF_FFC0, dice.word() & 0xFFFF_FF00);
        spot.kind(ROW, dice.pick(&[0, 14, 15, 16, 17, 31, 0x10F, 1 << 31]), high, low);
    }),
    ("a row with a bit beside its masks", |spot, dice| {
        let (high, low) = (dice.word() & 0xFFFF_FFC0, dice.word() & 0xFFFF_FF00);
        let [in_high, in_low] = dice.pick(&[[1, 0], [0, 1]]);
        let (bit_high, bit_low) = (1 << dice.below(6), 1 << dice.below(8));
        spot.kind(ROW, dice.below(16), high | (in_high * bit_high), low | (in_low * bit_low));
    }),
    ("another RAM word", |spot, dice| {
        spot.kind(RAM_WORD, 4 * dice.below(spot.judge.ram / 4), dice.word(), 0);
    }),
    ("a RAM place near the end", |spot, dice| {
        let end = spot.judge.ram;
        let places = [0, 4, end - 8, end - 4, end, end + 4, 2 * end, 1 << 31, 0xFFFF_FFFC];
        spot.kind(RAM_WORD, dice.pick(&places), dice.word(), 0);
    }),
    ("a RAM place that is not a multiple of 4", |spot, dice| {
        let place = 4 * dice.below(spot.judge.ram / 4) + dice.between(1, 3);
        spot.kind(RAM_WORD, place, dice.word(), 0);
    }),
    ("a RAM word with a distance", |spot, dice| {
        let place = 4 * dice.below(spot.judge.ram / 4);
        let (near, far) = (dice.below(20), 1 << dice.between(16, 31));
        let distance = dice.pick(&[near, 65_535, 65_536, far, far, far | near, u32::MAX]);
        spot.kind(RAM_WORD, place, dice.word(), distance);
    }),
    ("a register of a disk with a value", |spot, dice| {
        let [old, status] = dice.pick(&[[1, 0], [0, 1], [0, 3], [1, 1]]);
        spot.kind(DISK_WORD, disk_register(dice.below(8), dice.pick(&[4, 8])), old, status);
    }),
    ("no register of a disk", |spot, dice| {
        let (number, far) = (dice.below(8), 1 << dice.between(9, 31));
        let offsets = [0, 4, 0x20, 0x4C, 0xD4, 0x1D4, disk_register(number, 0), far];
        let other = dice.pick(&[disk_register(number, 12), disk_register(number, 5), far + 0x54]);
        let offset = dice.pick(&offsets);
        spot.kind(DISK_WORD, dice.pick(&[offset, other]), 0, 0);
    }),
    ("a disk's how", |spot, dice| {
        let number = dice.below(8) as usize;
        spot.set(disk(number, HOW), dice.pick(&[1, 2, 3, 4, 5, 0x1_0000, 0x8000, u32::MAX]));
    }),
    ("a disk at work", |spot, dice| {
        let number = dice.below(8) as usize;
        spot.set(disk(number, HOW), dice.between(1, 3));
        spot.set(disk(number, LEFT), dice.pick(&[1, 1 << 16, 1_024 << 16]));
    }),
    ("a disk that read a word", |spot, dice| {
        let number = dice.below(8) as usize;
        spot.set(disk(number, HOW), READ);
        spot.set(disk(number, LEFT), dice.between(1, 1_024) << 16);
        spot.set(disk(number, PLACE), 4 * dice.below(spot.judge.ram / 4));
        spot.set(disk(number, BYTES), dice.word());
    }),
    ("a word of a disk", |spot, dice| {
        let place = disk(dice.below(8) as usize, dice.between(1, 3) as usize);
        spot.set(place, 1 << dice.below(32));
    }),
    ("a disk's distance", |spot, dice| {
        let at = disk_distance(dice.below(8) as usize);
        spot.record[at + dice.below(2) as usize] = dice.between(1, 255) as u8;
    }),
    ("the disks' pending map", |spot, dice| {
        spot.set(DISKS_PENDING, 1 << dice.below(32));
        if dice.chance(2) {
            let cause = word(spot.record, CAUSE);
            spot.set(CAUSE, cause | 0x800);
        }
    }),
    ("a map of printers that wrote", |spot, dice| {
        spot.set(PRINTED, dice.below(256));
        spot.clear_bytes(dice);
    }),
    ("a map beyond printer 7", |spot, dice| {
        let map = word(spot.record, PRINTED) | 1 << dice.between(8, 31);
        spot.set(PRINTED, map);
    }),
    ("a byte of paper", |spot, dice| {
        spot.record[PAPER_BYTES + dice.below(8) as usize] = dice.below(256) as u8;
    }),
    ("a printer that wrote at its eighth's end", |spot, dice| {
        let number = spot.installed(dice);
        spot.print(number, 0, dice.below(256) as u8);
        let end = spot.judge.paper / 8;
        // The last would be the printer's first place, if numbers wrapped.
        let wrapped = 0u32.wrapping_sub(number as u32 * end);
        let counts = [end, end, end.saturating_sub(1), end + 1, u32::MAX, wrapped];
        spot.set(printer(number, COUNT), dice.pick(&counts));
    }),
    ("two bytes on one place", |spot, dice| {
        let number = dice.below(7) as usize;
        spot.print(number, spot.judge.paper / 8, dice.below(256) as u8);
        spot.print(number + 1, 0, dice.below(256) as u8);
    }),
    ("a paper count", |spot, dice| {
        let (number, end) = (spot.installed(dice), spot.judge.paper / 8);
        let any = dice.between(0, end);
        spot.set(printer(number, COUNT), dice.pick(&[0, any, end, end, end + 1, u32::MAX]));
    }),
    ("Status", |spot, dice| flip(spot, dice, STATUS)),
    ("Cause", |spot, dice| {
        let bits = [8, 9, 10, 11, 12, 13, 14, 14, 14, 15, 28, 29, 30, 31, 0, 1, 7, 16];
        let bit = 1 << dice.pick(&bits);
        let code = dice.pick(&[0, 11, 12, 13, 14, 31]) << 2;
        let cause = word(spot.record, CAUSE);
        spot.set(CAUSE, if dice.chance(2) { cause ^ bit } else { cause & !0x7C | code });
    }),
    ("the other CP0 words", |spot, dice| {
        let place = dice.pick(&[INDEX, RANDOM, ENTRY_HI, ENTRY_LO]);
        flip(spot, dice, place);
    }),
    ("Random at its ends", |spot, dice| {
        let field = dice.pick(&[0, 1, 2, 14, 15, 16, 17, 31, 32, 63, 64]) << 8;
        spot.set(RANDOM, field | dice.pick(&[0, 0, 0, 1, 0x80]));
    }),
    ("the pending map", |spot, dice| {
        let map = word(spot.record, PENDING) ^ 1 << dice.pick(&[0, 1, 2, 3, 4, 5, 6, 7, 8, 31]);
        spot.set(PENDING, map);
        let cause = word(spot.record, CAUSE) & !0x4000;
        if !dice.chance(4) {
            spot.set(CAUSE, cause | if map == 0 { 0 } else { 0x4000 });
        }
    }),
    ("a printer's DATA0", |spot, dice| {
        let number = spot.installed(dice);
        spot.set(printer(number, DATA0), dice.word());
    }),
    ("a printer's STATUS", |spot, dice| {
        let number = spot.installed(dice);
        spot.set(printer(number, PRINTER_STATUS), dice.pick(&[0, 1, 2, 3, 4, 5, 1 << 31]));
    }),
    ("a printer's COMMAND or ticks left", |spot, dice| {
        let (number, delay) = (spot.installed(dice), spot.judge.delay);
        if dice.chance(3) {
            spot.set(printer(number, COMMAND), dice.pick(&[0, 1, 2, 3, 0x102, u32::MAX]));
        } else {
            let ticks = [0, 1, 2, delay, delay, delay + 1, 1 << 31, u32::MAX];
            spot.set(printer(number, TICKS), dice.pick(&ticks));
        }
    }),
    ("any word of any printer", |spot, dice| {
        let place = printer(dice.below(8) as usize, dice.below(5) as usize);
        spot.set(place, dice.pick(&[0, 1, 2, 3, 4, 1 << 20]));
    }),
];

fn bits(spot: &mut Spot, dice: &mut Dice, count: u32) {
    for _ in 0..count {
        spot.record[dice.below(RECORD_BYTES as u32) as usize] ^= 1 << dice.below(8);
    }
}

fn flip(spot: &mut Spot, dice: &mut Dice, place: usize) {
    let value = word(spot.record, place);
    spot.set(place, value ^ 1 << dice.below(32));
}

impl Spot<'_> {
    fn set(&mut self, place: usize, value: u32) {
        set(self.record, place, value);
    }

    fn kind(&mut self, kind: u32, which: u32, old: u32, old_low: u32) {
        for (place, value) in [(KIND, kind), (WHICH, which), (OLD, old), (OLD_LOW, old_low)] {
            self.set(place, value);
        }
    }

    /// Any printer that is there, if one is.
    fn installed(&self, dice: &mut Dice) -> usize {
        let there: Vec<usize> = (0..8).filter(|k| self.judge.installed >> k & 1 != 0).collect();
        if there.is_empty() {
            dice.below(8) as usize
        } else {
            dice.pick(&there)
        }
    }

    fn print(&mut self, number: usize, count: u32, byte: u8) {
        let map = word(self.record, PRINTED) | 1 << number;
        self.set(PRINTED, map);
        self.set(printer(number, COUNT), count);
        self.record[PAPER_BYTES + number] = byte;
    }

    /// Any byte for a printer that wrote, 0 for the others.
    fn clear_bytes(&mut self, dice: &mut Dice) {
        let map = word(self.record, PRINTED);
        for number in 0..8 {
            let byte = if map >> number & 1 != 0 { dice.below(256) as u8 } else { 0 };
            self.record[PAPER_BYTES + number] = byte;
        }
    }
}
