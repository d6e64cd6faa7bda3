//! Runs and take-backs in turn, many of which end in the middle of transfers; and
//! questions between them. At the end all is as if nothing had been taken back.

use crate::dice::Dice;
use crate::disk::BUSY;
use crate::fields::same_but_journal_place;
use crate::look::RAM;
use crate::met::Met;
use crate::model_record::how;
use crate::record::{newest, word, DISK_WORD, KIND};
use crate::runs::budget;
use crate::scene::scene;
use crate::sides::{Checked, Sides};
use crate::world::World;
use reference::{Answer, Machine};

struct History<'a> {
    sides: Sides,
    began: World,
    /// Steps run less steps taken back.
    net: u64,
    met: &'a mut Met,
}

pub fn one(dice: &mut Dice, met: &mut Met) -> Checked {
    let slots = dice.pick(&[1, 2, 3, 17, 17, 40, 1_500]);
    let world = scene(dice, slots);
    let sides = Sides::new(world.clone());
    let mut history = History { sides, began: world, net: 0, met };
    history.met.histories += 1;
    for _ in 0..dice.between(3, 7) {
        match dice.below(8) {
            0..=3 => history.run(dice)?,
            4..=6 => history.take_back(dice)?,
            _ => history.ask(dice)?,
        }
    }
    history.take_back(dice)?;
    history.end()
}

impl History<'_> {
    fn run(&mut self, dice: &mut Dice) -> Checked {
        let answer = self.sides.run(budget(dice), dice.pick(&[0, 0, 0, 1]))?;
        self.net += u64::from(answer.steps);
        Ok(())
    }

    fn take_back(&mut self, dice: &mut Dice) -> Checked {
        let before = self.sides.theirs.machine();
        let most = before.on_hand;
        let steps = match dice.below(8) {
            0 => most,
            1 => most + 1,
            2 => most.min(1),
            _ => dice.between(0, most),
        };
        let answer = self.sides.take_back(steps.into())?;
        let due = if steps > most { Answer::refused(7) } else { Answer::done(0, steps) };
        if answer != due {
            return Err(vec![format!("both answered {answer:?}, not {due:?}")]);
        }
        if steps <= most {
            self.net -= u64::from(steps);
            self.count(&before, steps);
        }
        Ok(())
    }

    fn count(&mut self, before: &Machine, steps: u32) {
        let world = &self.sides.theirs;
        let after = world.machine();
        self.met.taken_back += u64::from(steps);
        let at_work = |machine: &Machine, number: usize| machine.disks[number].status == BUSY;
        for number in 0..8 {
            let places = [at_work(&after, number), at_work(before, number)];
            self.met.between[usize::from(places[0]) + 2 * usize::from(places[1])] += 1;
        }
        for slot in newest(before.next_slot, world.slots(), steps as usize) {
            let record = world.record(slot);
            for number in 0..8 {
                self.met.given_back[how(record, number).min(3) as usize] += 1;
            }
            self.met.registers_back += u64::from(word(record, KIND) == DISK_WORD);
        }
    }

    /// Mostly a word that a record on hand tells of.
    fn asked_for(&self, dice: &mut Dice) -> u32 {
        let world = &self.sides.theirs;
        let machine = world.machine();
        if machine.on_hand > 0 && !dice.chance(4) {
            let age = dice.between(1, machine.on_hand) as usize;
            let slot = newest(machine.next_slot, world.slots(), age).last().expect("on hand");
            let places = crate::model_index::places(world.record(slot));
            if let Some(place) = places.first() {
                return place.at as u32;
            }
        }
        4 * dice.below(world.ram.len() as u32 / 4)
    }

    fn ask(&mut self, dice: &mut Dice) -> Checked {
        let place = self.asked_for(dice);
        let (answer, told) = self.sides.last_write(u64::from(RAM + place), &[0xEE; 16])?;
        self.met.asked[usize::from(answer.steps != 0)] += 1;
        if answer.steps != 0 {
            // A read's word is told by its disk alone.
            let world = &self.sides.theirs;
            let machine = world.machine();
            let slot = newest(machine.next_slot, world.slots(), answer.steps as usize).last();
            let record = world.record(slot.expect("on hand"));
            let by_disk = crate::model_index::places(record);
            self.met.told_reads += u64::from(by_disk.iter().any(|it| it.disk.is_some()));
            assert_eq!(told.len(), 16);
        }
        Ok(())
    }

    fn end(self) -> Checked {
        let mut straight = self.began.clone();
        let mut machine = straight.machine();
        (machine.on_hand, machine.next_slot) = (0, 0);
        straight.set_machine(&machine);
        if u64::from(straight.run_on(self.net).steps) != self.net {
            return Err(vec!["the way there stopped early".to_string()]);
        }
        let now = &self.sides.theirs;
        let same = same_but_journal_place(&straight.image, &now.image)
            && straight.ram == now.ram
            && straight.paper == now.paper
            && straight.disks == now.disks;
        if same {
            Ok(())
        } else {
            Err(vec![format!("not the state of {} steps from the start", self.net)])
        }
    }
}
