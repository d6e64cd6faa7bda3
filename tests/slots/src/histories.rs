//! Random histories of runs and take-backs. After each take-back the machine is
//! the one that so many steps from the start make.

use crate::dice::Dice;
use crate::fields::clear_journal_place;
use crate::met::Met;
use crate::pool::Pool;
use crate::record::{at, newest, set, word, BRANCH_ADDRESS, SLOT_FLAG};
use crate::scene::{scene, STOPS};
use crate::sides::{Buffers, Sides};
use crate::sight::bd;
use reference::layout::RECORD_BYTES;
use reference::{Answer, Machine};

struct History<'a> {
    sides: Sides,
    began: Buffers,
    /// Steps run less steps taken back.
    net: u64,
    met: &'a mut Met,
}

type Checked = Result<(), Vec<String>>;

fn unexpected(answer: Answer) -> Checked {
    Err(vec![format!("both answered {answer:?}")])
}

impl History<'_> {
    fn on_hand(&self) -> u32 {
        self.sides.machine().on_hand
    }

    fn run(&mut self, budget: u64, stop: u64) -> Checked {
        let answer = self.sides.run(budget, stop)?;
        self.met.history_runs += 1;
        self.net += u64::from(answer.steps);
        if answer.number == 0 {
            Ok(())
        } else {
            unexpected(answer)
        }
    }

    fn take_back(&mut self, steps: u64) -> Checked {
        let before = self.sides.machine();
        let answer = self.sides.take_back(steps)?;
        self.met.take_backs += 1;
        if steps > before.on_hand.into() {
            self.met.not_on_hand += 1;
            return if answer == Answer::refused(7) { Ok(()) } else { unexpected(answer) };
        }
        if answer != Answer::done(0, steps as u32) {
            return unexpected(answer);
        }
        self.count(&before, steps);
        self.net -= steps;
        self.is_earlier()
    }

    fn count(&mut self, before: &Machine, steps: u64) {
        if steps == 0 {
            return;
        }
        let after = self.sides.machine();
        let met = &mut *self.met;
        met.from_slot += u64::from(before.slot_flag == 1);
        met.into_slot += u64::from(after.slot_flag == 1);
        met.between_slots += u64::from(before.slot_flag == 1 && after.slot_flag == 1);
        met.over_bd += u64::from(bd(before) != bd(&after));
        let journal = &self.sides.theirs.journal;
        for slot in newest(before.next_slot, journal.len() / RECORD_BYTES, steps as usize) {
            met.slot_records += u64::from(word(at(journal, slot), SLOT_FLAG) == 1);
        }
    }

    fn is_earlier(&self) -> Checked {
        if self.sides.is_behind(&self.began, self.net) {
            Ok(())
        } else {
            Err(vec![format!("not the state of {} steps from the start", self.net)])
        }
    }

    /// Another flag and address in one of the records asked for: 8 where they
    /// break the rule, else they are given back.
    fn damaged(mut self, dice: &mut Dice) -> Checked {
        let machine = self.sides.machine();
        let slots = self.sides.theirs.journal.len() / RECORD_BYTES;
        let steps = dice.between(1, machine.on_hand);
        let age = dice.between(1, steps) as usize;
        let place = newest(machine.next_slot, slots, age).last().expect("one is on hand");
        let mut record = at(&self.sides.theirs.journal, place).to_vec();
        let any = dice.word();
        let flag = dice.pick(&[0, 0, 1, 1, 2, 0x100, 1 << 31]);
        let address = dice.pick(&[0, 0, 1, any, u32::MAX]);
        set(&mut record, SLOT_FLAG, flag);
        set(&mut record, BRANCH_ADDRESS, address);
        self.sides.set_record(place, &record);
        let kept = flag == 1 || flag == 0 && address == 0;
        let answer = self.sides.take_back(steps.into())?;
        self.met.damaged[usize::from(kept)] += 1;
        let expected = if kept { Answer::done(0, steps) } else { Answer::refused(8) };
        if answer != expected {
            return unexpected(answer);
        }
        let after = self.sides.machine();
        if kept
            && age == steps as usize
            && (after.slot_flag, after.branch_address) != (flag, address)
        {
            return Err(vec!["not the flag and the address of the record".to_string()]);
        }
        Ok(())
    }
}

fn steps_back(dice: &mut Dice, on_hand: u32) -> u64 {
    u64::from(match dice.below(6) {
        0 => on_hand + 1,
        1 | 2 => on_hand,
        3 => on_hand.min(1),
        _ => dice.between(0, on_hand),
    })
}

fn budget(dice: &mut Dice) -> u64 {
    u64::from(if dice.chance(2) { dice.between(0, 3) } else { dice.between(4, 24) })
}

pub fn one(dice: &mut Dice, pool: &Pool, met: &mut Met) -> Checked {
    let mut call = scene(dice, pool);
    let slots = dice.pick(&[0, 1, 2, 3, 17, 17, 17]);
    call.journal = pool.bytes(dice, RECORD_BYTES * slots);
    // Nothing is on hand at the start.
    clear_journal_place(&mut call.image);
    let reset = dice.chance(6);
    if reset {
        call.image = pool.bytes(dice, call.image.len());
    }
    let mut sides = Sides::new(call);
    if reset {
        met.resets += 1;
        let answer = sides.reset([1, dice.between(1, 9).into(), dice.below(256).into()])?;
        if answer != Answer::done(0, 0) {
            return unexpected(answer);
        }
    }
    let began = sides.beginning();
    met.histories += 1;
    let mut history = History { sides, began, net: 0, met };
    history.run(budget(dice), 0)?;
    for _ in 0..dice.between(2, 5) {
        if dice.chance(2) {
            let steps = steps_back(dice, history.on_hand());
            history.take_back(steps)?;
        } else {
            let stop = if dice.chance(4) { dice.pick(&STOPS) } else { 0 };
            history.run(budget(dice), stop)?;
        }
    }
    history.is_earlier()?;
    if history.on_hand() > 0 && dice.chance(4) {
        return history.damaged(dice);
    }
    Ok(())
}
