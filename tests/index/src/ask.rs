//! The question, beside what the past says.

use crate::dice::Dice;
use crate::entry;
use crate::history::{wrong, Checked, History};
use crate::program::{places, RAM};
use crate::record::{at, newest, word, KIND, RAM_WORD, WHICH};
use reference::Answer;

/// Mostly one of the places that programs store to, or `stored`.
fn address(dice: &mut Dice, frames: usize, stored: Option<u32>) -> u64 {
    let (start, bytes) = (u64::from(RAM), (frames * entry::FRAME) as u64);
    let end = start + bytes;
    let any = dice.pick(&places(frames));
    let place = u64::from(stored.filter(|_| dice.chance(2)).unwrap_or(any));
    match dice.below(20) {
        0 => dice.pick(&[0, 4, start - 4, end, end + 4, 0x1FC0_0000, 0x1000_0050]),
        1 => dice.pick(&[0xFFFF_FFFC, 1 << 32, 1 << 63, u64::MAX - 3, u64::MAX]),
        2 => (start + place) | 1 << dice.between(32, 63),
        3 => start + place + u64::from(dice.between(1, 3)),
        4 => start + 4 * u64::from(dice.below((bytes / 4) as u32)),
        5 => dice.any_size(),
        _ => start + place,
    }
}

impl History<'_> {
    fn place(&self, address: u64) -> Option<usize> {
        let place = address.checked_sub(RAM.into())?;
        let inside = place < self.sides.theirs.ram.len() as u64 && place % 4 == 0;
        inside.then_some(place as usize)
    }

    /// What is due, from the list of what each step altered.
    fn due(&self, address: u64, content: &[u8]) -> (Answer, Vec<u8>) {
        let place = match self.place(address) {
            None => return (Answer::refused(11), content.to_vec()),
            Some(_) if content.len() != 16 => return (Answer::refused(12), content.to_vec()),
            Some(place) => place,
        };
        match self.past.last_write(place) {
            None => (Answer::done(0, 0), vec![0; 16]),
            Some((steps, clock, change)) => {
                let words = [(clock >> 32) as u32, clock as u32, change.old, change.new];
                (Answer::done(0, steps as u32), entry::of_words(words).to_vec())
            }
        }
    }

    pub fn ask(&mut self, dice: &mut Dice) -> Checked {
        let stored = self.stored(dice);
        let address = address(dice, self.frames, stored);
        let length = if dice.chance(20) { dice.pick(&[0, 8, 15, 17, 20, 32]) } else { 16 };
        let content = dice.bytes(length);
        let (answer, told) = self.sides.last_write(address, &content)?;
        self.met.asked += 1;
        self.met.by_number[answer.number as usize] += 1;
        if !self.known {
            self.met.asked_unknown += 1;
            return Ok(());
        }
        let due = self.due(address, &content);
        if (answer, &told) != (due.0, &due.1) {
            return wrong(format!("{address:#x}: both answered {answer:?}, due is {:?}", due.0));
        }
        match self.place(address) {
            Some(place) if answer.number == 0 => self.count(place, answer.steps),
            Some(_) => {}
            None => self.met.refused_address(address, self.sides.theirs.ram.len()),
        }
        Ok(())
    }

    /// The place of a store on hand, if one of the tries meets a store.
    fn stored(&self, dice: &mut Dice) -> Option<u32> {
        let machine = self.sides.machine();
        let on_hand = machine.on_hand as usize;
        (0..on_hand.min(4)).find_map(|_| {
            let age = dice.between(1, on_hand as u32) as usize;
            let slot = (machine.next_slot as usize + self.slots - age) % self.slots;
            let record = at(&self.sides.theirs.journal, slot);
            (word(record, KIND) == RAM_WORD).then(|| word(record, WHICH))
        })
    }

    /// Stores to the word among so many of the newest records.
    fn stores(&self, place: usize, count: u32) -> usize {
        if self.slots == 0 {
            return 0;
        }
        let next_slot = self.sides.machine().next_slot;
        newest(next_slot, self.slots, count as usize)
            .map(|slot| at(&self.sides.theirs.journal, slot))
            .filter(|it| word(it, KIND) == RAM_WORD && word(it, WHICH) as usize == place)
            .count()
    }

    fn count(&mut self, place: usize, steps: u32) {
        let (on_hand, next_slot) = (self.on_hand(), self.sides.machine().next_slot);
        let passed = if steps == 0 { on_hand } else { steps - 1 };
        let equal = self.stores(place, passed) > 0;
        let written_before = steps == 0 && self.past.altered(place);
        let met = &mut *self.met;
        met.told += u64::from(steps > 0);
        met.told_newest += u64::from(steps == 1);
        met.told_oldest += u64::from(steps > 0 && steps == on_hand);
        met.told_round += u64::from(steps > next_slot);
        met.told_behind_equal += u64::from(steps > 0 && equal);
        met.told_beside_spoiled += u64::from(steps > 0 && !self.kept);
        met.none += u64::from(steps == 0);
        met.none_but_equal += u64::from(steps == 0 && equal);
        met.none_but_dropped += u64::from(written_before);
        met.none_on_hand += u64::from(on_hand == 0);
    }
}
