//! Random histories of runs and take-backs across halts. After each take-back
//! the machine is the one that so many steps from the start make.

use crate::dice::Dice;
use crate::fields::clear_journal_place;
use crate::met::Met;
use crate::scene::{scene, STOPS};
use crate::sides::{Buffers, Sides};
use reference::layout::RECORD_BYTES;
use reference::{Answer, TWO_MATCHES};

struct History<'a> {
    sides: Sides,
    began: Buffers,
    slots: u64,
    /// Steps run less steps taken back.
    net: u64,
    /// As the last call left it.
    halted: bool,
    met: &'a mut Met,
}

impl History<'_> {
    fn on_hand(&self) -> u64 {
        self.sides.machine().on_hand.into()
    }

    fn run(&mut self, budget: u64, stop: u64) -> Result<Answer, Vec<String>> {
        let was_halted = self.halted;
        let answer = self.sides.run(budget, stop)?;
        let steps = u64::from(answer.steps);
        self.net += steps;
        self.halted = answer.reason == TWO_MATCHES;
        self.met.history_runs += 1;
        self.met.history_halts += u64::from(self.halted);
        let round = self.halted && self.slots > 0 && steps > self.slots;
        self.met.round_the_journal += u64::from(round);
        if was_halted && steps > 0 {
            return unexpected(answer);
        }
        Ok(answer)
    }

    fn take_back(&mut self, steps: u64) -> Result<(), Vec<String>> {
        let on_hand = self.on_hand();
        let answer = self.sides.take_back(steps)?;
        self.met.take_backs += 1;
        if steps > on_hand {
            self.met.refused += 1;
            return if answer == Answer::refused(7) { Ok(()) } else { unexpected(answer) };
        }
        if answer != Answer::done(0, steps as u32) {
            return unexpected(answer);
        }
        self.met.from_halt += u64::from(self.halted && steps > 0);
        self.met.all_from_halt += u64::from(self.halted && steps > 0 && steps == on_hand);
        self.halted &= steps == 0;
        self.net -= steps;
        self.is_earlier()
    }

    fn is_earlier(&self) -> Result<(), Vec<String>> {
        if self.sides.is_behind(&self.began, self.net) {
            Ok(())
        } else {
            Err(vec![format!("not the state of {} steps from the start", self.net)])
        }
    }

    /// Back, and to the halt again: by just that budget, or by the halt.
    fn and_back(&mut self, dice: &mut Dice) -> Result<(), Vec<String>> {
        let steps = u64::from(dice.between(0, self.on_hand() as u32));
        self.take_back(steps)?;
        if dice.chance(2) {
            let answer = self.run(steps, 0)?;
            self.met.to_the_halt_again += u64::from(steps > 0);
            if answer != Answer::done(reference::BUDGET_SPENT, steps as u32) {
                return unexpected(answer);
            }
        }
        let answer = self.run(steps + 1, 0)?;
        self.met.halted_again += u64::from(steps > 0);
        if answer.reason == TWO_MATCHES {
            Ok(())
        } else {
            unexpected(answer)
        }
    }
}

fn unexpected<T>(answer: Answer) -> Result<T, Vec<String>> {
    Err(vec![format!("both answered {answer:?}")])
}

fn steps_back(dice: &mut Dice, on_hand: u64) -> u64 {
    match dice.below(6) {
        0 => on_hand + 1,
        1 | 2 => on_hand,
        3 => on_hand.min(1),
        _ => u64::from(dice.between(0, on_hand as u32)),
    }
}

pub fn one(dice: &mut Dice, bytes: &[u8], met: &mut Met) -> Result<(), Vec<String>> {
    let mut call = scene(dice, bytes);
    let slots = dice.pick(&[0, 1, 2, 3, 17, 17]);
    call.journal = bytes[..RECORD_BYTES * slots].to_vec();
    // Nothing is on hand at the start.
    clear_journal_place(&mut call.image);
    let first = call.budget;
    let sides = Sides::new(call);
    let began = sides.beginning();
    met.histories += 1;
    let slots = slots as u64;
    let mut history = History { sides, began, slots, net: 0, halted: false, met };
    history.run(first, 0)?;
    for _ in 0..dice.between(2, 4) {
        match dice.below(4) {
            0 | 1 if history.halted => history.and_back(dice)?,
            2 => {
                let steps = steps_back(dice, history.on_hand());
                history.take_back(steps)?;
            }
            _ => {
                let stop = if dice.chance(4) { dice.pick(&STOPS) } else { 0 };
                history.run(u64::from(dice.between(0, 12)), stop)?;
            }
        }
    }
    history.is_earlier()
}
