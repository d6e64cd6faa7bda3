//! One run whose journal is damaged again and again, a record or two at a
//! time: judged here, by the reference and by the archive.

use crate::damage::{Spot, DAMAGES};
use crate::dice::Dice;
use crate::judge::{wrote, Judge, WRONGS};
use crate::record::*;
use crate::report::{different, unpacked};
use crate::sides::{Buffers, Sides};
use reference::Machine;

#[derive(Default)]
pub struct Met {
    pub journals: u64,
    pub records: u64,
    pub by_place: [u64; 4],
    pub by_slots: [u64; 5],
    pub done: Vec<u64>,
    pub refused: Vec<u64>,
    /// By what was wrong, alone and at all.
    pub alone: Vec<u64>,
    pub wrong: Vec<u64>,
    pub only_the_oldest: u64,
    pub two_damaged: u64,
    /// Done although a place on paper is not in its printer's eighth.
    pub next_eighth: u64,
    /// Done with two bytes for one place, different ones.
    pub one_place: u64,
    pub other_lengths: [u64; 3],
}

pub const PLACES: [&str; 4] = ["newest", "middle", "oldest", "not asked for"];

/// A run whose journal is to be damaged, with what it left.
pub struct Case<'a> {
    pub what: String,
    pub sides: Sides,
    pub left: Buffers,
    pub machine: Machine,
    pub judge: Judge,
    pub met: &'a mut Met,
}

impl Case<'_> {
    fn fail(&self, what: &str, lines: Vec<String>) -> ! {
        different("a damaged journal", &[vec![self.what.clone(), what.to_string()], lines].concat())
    }

    fn slot(&self, age: u32) -> usize {
        let slots = self.left.journal.len() / RECORD_BYTES;
        newest(self.machine.next_slot, slots, age as usize + 1).last().expect("a slot")
    }

    /// Which of the records asked for: 0 is the newest.
    fn age(&mut self, dice: &mut Dice, steps: u32) -> u32 {
        let (place, age) = match dice.below(8) {
            0..=1 => (0, 0),
            2..=3 if steps > 2 => (1, dice.between(1, steps - 2)),
            // Behind those asked for, where it must not matter.
            4 if steps < self.machine.on_hand => (3, steps),
            _ => (2, steps - 1),
        };
        self.met.by_place[place] += 1;
        age
    }

    fn damaged(&self, dice: &mut Dice, age: u32, which: usize) -> Vec<u8> {
        let mut record = at(&self.left.journal, self.slot(age)).to_vec();
        let other = self.slot(dice.below(self.machine.on_hand));
        let other = at(&self.left.journal, other);
        DAMAGES[which].1(&mut Spot { record: &mut record, other, judge: self.judge }, dice);
        record
    }

    pub fn one(&mut self, dice: &mut Dice, which: usize) {
        let on_hand = self.machine.on_hand;
        let steps = if dice.chance(4) { on_hand } else { dice.between(1, on_hand) };
        let age = self.age(dice, steps);
        let record = self.damaged(dice, age, which);
        let mut damaged = vec![(age, record)];
        if dice.chance(8) {
            let (age, which) = (dice.below(on_hand), dice.below(DAMAGES.len() as u32));
            if age != damaged[0].0 {
                damaged.push((age, self.damaged(dice, age, which as usize)));
            }
        }
        let asked: Vec<&(u32, Vec<u8>)> = damaged.iter().filter(|(age, _)| *age < steps).collect();
        let wrongs: Vec<u64> = asked.iter().map(|(_, record)| self.judge.wrongs(record)).collect();
        let expected = if wrongs.iter().any(|wrong| *wrong != 0) { 8 } else { 0 };
        let name = DAMAGES[which].0;
        let what = format!("{name}, record {age} of {steps} asked for, {on_hand} on hand");
        for (age, record) in &damaged {
            self.sides.set_record(self.slot(*age), record);
        }
        match self.sides.take_back(steps.into()) {
            Err(lines) => self.fail(&what, lines),
            Ok(answer) if answer.number != expected => {
                let lines = vec![
                    format!("both answered {}", unpacked(answer.packed())),
                    format!("by the judge of these tests {expected}: {wrongs:x?}"),
                ];
                self.fail(&what, lines)
            }
            Ok(_) => {}
        }
        self.count(which, expected, &wrongs, &damaged, steps);
        self.sides.restore(&self.left);
        for (age, _) in damaged {
            let slot = self.slot(age);
            let record = at(&self.left.journal, slot).to_vec();
            self.sides.set_record(slot, &record);
        }
    }

    fn count(
        &mut self,
        which: usize,
        number: u8,
        wrongs: &[u64],
        damaged: &[(u32, Vec<u8>)],
        steps: u32,
    ) {
        let (judge, met) = (self.judge, &mut *self.met);
        met.journals += 1;
        met.records += u64::from(steps);
        met.two_damaged += u64::from(wrongs.len() == 2);
        if number == 0 {
            met.done[which] += 1;
        } else {
            met.refused[which] += 1;
            met.only_the_oldest += u64::from(steps > 1 && damaged[0].0 == steps - 1);
        }
        for wrong in wrongs {
            for place in (0..WRONGS.len()).filter(|place| wrong >> place & 1 != 0) {
                met.wrong[place] += 1;
                met.alone[place] += u64::from(wrong.count_ones() == 1);
            }
        }
        for (age, record) in damaged {
            if number != 0 || *age >= steps {
                continue;
            }
            let places: Vec<_> = (0..8).filter(|k| wrote(record, *k)).collect();
            let place = |k: usize| judge.place(record, k);
            let eighth = u64::from(judge.paper / 8);
            met.next_eighth += u64::from(places.iter().any(|k| place(*k) / eighth != *k as u64));
            let pair = |k: &usize| {
                wrote(record, *k + 1)
                    && place(*k) == place(*k + 1)
                    && record[PAPER_BYTES + *k] != record[PAPER_BYTES + *k + 1]
            };
            met.one_place += u64::from(places.iter().filter(|k| **k < 7).any(pair));
        }
    }
}
