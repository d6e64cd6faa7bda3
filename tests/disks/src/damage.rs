//! Ways to damage what a record says of disks: each class of its layout, its places
//! and what it gives back. Some leave it well formed.

use crate::code::disk_at;
use crate::dice::Dice;
use crate::model_record::{how, set_distance};
use crate::record::*;

pub struct Spot<'a> {
    pub record: &'a mut [u8],
    pub other: &'a [u8],
    pub ram: u32,
    pub delay: u32,
}

pub type Damage = (&'static str, fn(&mut Spot, &mut Dice));

const WROTE: u32 = 3;

pub const DAMAGES: [Damage; 24] = [
    ("one bit of the disks' part", |spot, dice| {
        let at = dice.between(4 * KIND as u32, 4 * UNUSED as u32 - 1) as usize;
        spot.record[at] ^= 1 << dice.below(8);
    }),
    ("any bit", |spot, dice| spot.record[dice.below(512) as usize] ^= 1 << dice.below(8)),
    ("another record's disks", |spot, _| {
        let part = 4 * DISKS_PENDING..4 * UNUSED;
        spot.record[part.clone()].copy_from_slice(&spot.other[part]);
    }),
    ("a word that holds nothing", |spot, dice| {
        spot.set(dice.between(UNUSED as u32, WORDS as u32 - 1) as usize, 1 << dice.below(32));
    }),
    ("a kind over 4", |spot, dice| spot.set(KIND, dice.pick(&[5, 6, 0x104, 1 << 31]))),
    ("a register of a disk", |spot, dice| {
        let offset = disk_at(dice.below(8)) + dice.pick(&[4, 8]);
        spot.kind(DISK_WORD, offset, dice.pick(&[0, 1, 0x102, 3, 4]), dice.below(9));
    }),
    ("no register of a disk", |spot, dice| {
        let offset = disk_at(dice.below(8)) + dice.pick(&[0, 12, 5, 9, 0x200, 0x80]);
        spot.kind(DISK_WORD, dice.pick(&[offset, 0x20, 0, u32::MAX]), 0, 0);
    }),
    ("a store's place among the transfers'", |spot, dice| {
        let place = spot.some_place(dice);
        spot.kind(RAM_WORD, place, dice.word(), dice.below(5));
    }),
    ("how over 3", |spot, dice| {
        let number = dice.below(8) as usize;
        spot.set_how(number, dice.pick(&[4, 5, 0x8000, 0xFFFF]));
    }),
    ("how of a disk at work", |spot, dice| {
        let number = spot.at_work(dice);
        spot.set_how(number, dice.below(4));
    }),
    ("how of a disk at work, as it should be", |spot, dice| {
        let number = spot.at_work(dice);
        let how = dice.between(1, 3);
        spot.set_how(number, how);
        spot.fit(number, how, dice);
    }),
    ("any disk at work", |spot, dice| {
        let (number, how) = (dice.below(8) as usize, dice.between(1, 3));
        let left = dice.pick(&[1, spot.delay, 1 << 16, 1_024 << 16, 700 << 16]);
        spot.set(disk(number, HOW), how);
        spot.set(disk(number, LEFT), left);
        spot.fit(number, how, dice);
    }),
    ("a disk that rests", |spot, dice| {
        let number = dice.below(8) as usize;
        (0..4).for_each(|field| spot.set(disk(number, field), 0));
        set_distance(spot.record, number, 0);
    }),
    ("a word of a disk that rests", |spot, dice| {
        let number = spot.at_rest(dice);
        spot.set(disk(number, dice.between(1, 3) as usize), 1 << dice.below(32));
    }),
    ("a cylinder", |spot, dice| {
        let number = dice.below(8) as usize;
        let how = how(spot.record, number);
        spot.set(disk(number, HOW), how | dice.pick(&[0, 1, 2, 3, 0xFFFF]) << 16);
    }),
    ("ticks and words left", |spot, dice| {
        let number = spot.at_work(dice);
        let ticks = dice.pick(&[0, 0, 1, spot.delay, spot.delay + 1, 0xFFFF]);
        let words = dice.pick(&[0, 1, 2, 1_023, 1_024, 1_025, 0xFFFF]);
        spot.set(disk(number, LEFT), ticks | words << 16);
    }),
    ("a RAM place", |spot, dice| {
        let (number, end) = (spot.with_how(dice, READ), spot.ram);
        let any = 4 * dice.below(end / 4);
        let places = [0, any, end - 4, end, end + 4, end - 2, any + 1, any + 2, 0xFFFF_FFFC];
        spot.set(disk(number, PLACE), dice.pick(&places));
    }),
    ("one RAM place for all", |spot, dice| {
        let place = spot.some_place(dice);
        for number in (0..8).filter(|number| how(spot.record, *number) == READ).collect::<Vec<_>>()
        {
            spot.set(disk(number, PLACE), place);
            spot.set(disk(number, BYTES), dice.word());
        }
    }),
    ("a place of a disk that read nothing", |spot, dice| {
        let number = spot.at_rest(dice);
        spot.set(disk(number, PLACE), 4 * dice.below(9));
        let number = spot.with_how(dice, WROTE);
        spot.set(disk(number, PLACE), 4 * dice.below(9));
    }),
    ("bytes", |spot, dice| {
        let number = spot.at_work(dice);
        spot.set(disk(number, BYTES), dice.word());
    }),
    ("distances", |spot, dice| {
        for number in (0..8).filter(|number| how(spot.record, *number) == READ).collect::<Vec<_>>()
        {
            set_distance(spot.record, number, dice.pick(&[0, 1, 2, 3, 9, 0xFFFF]));
        }
    }),
    ("a distance of a disk that read nothing", |spot, dice| {
        let number = dice.below(8) as usize;
        if how(spot.record, number) != READ {
            set_distance(spot.record, number, dice.pick(&[1, 0x100, 0xFFFF]));
        }
    }),
    ("the disks' pending map", |spot, dice| {
        let map = word(spot.record, DISKS_PENDING) ^ 1 << dice.pick(&[0, 1, 3, 7, 7, 8, 31]);
        spot.set(DISKS_PENDING, map);
        let cause = word(spot.record, CAUSE) & !0x800;
        if !dice.chance(4) {
            spot.set(CAUSE, cause | if map == 0 { 0 } else { 0x800 });
        }
    }),
    ("IP[3]", |spot, _| spot.set(CAUSE, word(spot.record, CAUSE) ^ 0x800)),
];

impl Spot<'_> {
    fn set(&mut self, place: usize, value: u32) {
        set(self.record, place, value);
    }

    fn kind(&mut self, kind: u32, which: u32, old: u32, old_low: u32) {
        for (place, value) in [(KIND, kind), (WHICH, which), (OLD, old), (OLD_LOW, old_low)] {
            self.set(place, value);
        }
    }

    fn set_how(&mut self, number: usize, how: u32) {
        let cylinder = word(self.record, disk(number, HOW)) & 0xFFFF_0000;
        self.set(disk(number, HOW), cylinder | how);
    }

    /// What how asks of the other words.
    fn fit(&mut self, number: usize, how: u32, dice: &mut Dice) {
        let place = 4 * dice.below(self.ram / 4);
        self.set(disk(number, PLACE), if how == READ { place } else { 0 });
        self.set(disk(number, BYTES), if how == 1 { 0 } else { dice.word() });
        set_distance(self.record, number, if how == READ { dice.below(3) } else { 0 });
    }

    fn any(&self, dice: &mut Dice, wanted: impl Fn(u32) -> bool) -> usize {
        let found: Vec<usize> = (0..8).filter(|number| wanted(how(self.record, *number))).collect();
        if found.is_empty() {
            dice.below(8) as usize
        } else {
            dice.pick(&found)
        }
    }

    fn at_work(&self, dice: &mut Dice) -> usize {
        self.any(dice, |how| how != 0)
    }

    fn at_rest(&self, dice: &mut Dice) -> usize {
        self.any(dice, |how| how == 0)
    }

    fn with_how(&self, dice: &mut Dice, wanted: u32) -> usize {
        self.any(dice, |how| how == wanted)
    }

    /// A place that a disk has read to, if one has.
    fn some_place(&self, dice: &mut Dice) -> u32 {
        let number = self.with_how(dice, READ);
        let place = word(self.record, disk(number, PLACE)) & !3;
        if how(self.record, number) == READ && place < self.ram {
            place
        } else {
            4 * dice.below(self.ram / 4)
        }
    }
}
