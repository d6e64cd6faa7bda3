//! One machine with its past: each call on both sides, beside the rules written
//! here, and beside an index that is worked out afresh.

use crate::call::Call;
use crate::dice::Dice;
use crate::faults::Fault;
use crate::keep::Kept;
use crate::lent::Slices;
use crate::met::Met;
use crate::past::{LastWrite, Past};
use crate::program::places;
use crate::sides::{Buffers, Sides};
use crate::{wrong_back, wrong_run};
use reference::Answer;

pub type Checked = Result<(), Vec<String>>;

pub fn wrong(what: impl Into<String>) -> Checked {
    Err(vec![what.into()])
}

pub struct History<'a> {
    pub sides: Sides,
    pub past: Past,
    pub slots: usize,
    pub frames: usize,
    /// Image, RAM and journal are what calls have left since a start with no
    /// steps on hand.
    pub known: bool,
    /// The index too, since a reset.
    pub kept: bool,
    pub met: &'a mut Met,
}

impl History<'_> {
    pub fn new(call: Call, met: &mut Met) -> History<'_> {
        let (slots, frames) = (call.slots(), call.index.len() / 16);
        let past = Past::new(slots, &call.ram);
        let sides = Sides::new(call);
        History { sides, past, slots, frames, known: false, kept: false, met }
    }

    pub fn on_hand(&self) -> u32 {
        self.sides.machine().on_hand
    }

    /// From here on every step is known.
    pub fn begin(&mut self) {
        self.past = Past::new(self.slots, &self.sides.theirs.ram);
        self.known = true;
    }

    /// A reset, and now and then a clock that is near a carry or its end.
    pub fn reset(&mut self, dice: &mut Dice) -> Checked {
        let parameters = [1, dice.between(1, 5).into(), dice.pick(&[0, 1, 0x83, 0xFF])];
        let answer = self.sides.reset(parameters)?;
        if answer != Answer::done(0, 0) {
            return wrong(format!("reset: both answered {answer:?}"));
        }
        let clock = clock(dice, self.slots);
        self.sides.change(|machine| machine.clock = clock);
        self.begin();
        self.kept = true;
        self.met.resets += 1;
        self.check()
    }

    pub fn run(&mut self, budget: u64, stop: u64) -> Checked {
        let before = self.sides.theirs.clone();
        let clock = self.sides.machine().clock;
        let answer = self.sides.run(budget, stop)?;
        if answer.number != 0 {
            return wrong(format!("run of {budget}: both answered {answer:?}"));
        }
        if self.known {
            let lent = &self.sides.lent;
            let roms = [lent.execution.content(), lent.bootstrap.content()];
            self.past.run(&before, roms, answer.steps);
        }
        self.met.ran(answer.steps, clock, self.slots);
        let beside =
            |lent: Slices, met: &mut Kept| wrong_run::run(Fault::NotWrong, lent, budget, stop, met);
        self.beside(before, answer, beside)?;
        self.check()
    }

    pub fn take_back(&mut self, steps: u64) -> Checked {
        let before = self.sides.theirs.clone();
        let on_hand = self.on_hand();
        let answer = self.sides.take_back(steps)?;
        let due: &[u8] = match (steps > on_hand.into(), self.known) {
            (true, _) => &[7],
            (false, true) => &[0],
            (false, false) => &[0, 8],
        };
        if !due.contains(&answer.number) {
            return wrong(format!("take-back of {steps}: both answered {answer:?}"));
        }
        if self.known && answer.number == 0 {
            self.past.take_back(steps as usize);
        }
        self.met.took_back(answer, on_hand);
        let beside =
            |lent: Slices, met: &mut Kept| wrong_back::take_back(Fault::NotWrong, lent, steps, met);
        self.beside(before, answer, beside)?;
        self.check()
    }

    /// The same call on what it began with, by the rules that are written here.
    fn beside(
        &mut self,
        mut before: Buffers,
        answer: Answer,
        call: impl FnOnce(Slices, &mut Kept) -> Answer,
    ) -> Checked {
        let Buffers { image, ram, paper, journal, index } = &mut before;
        let lent = &self.sides.lent;
        let (execution, bootstrap) = (lent.execution.content(), lent.bootstrap.content());
        let slices = Slices { image, execution, bootstrap, ram, paper, journal, index };
        let beside = call(slices, &mut self.met.by_keeping[usize::from(self.kept)]);
        if beside == answer && before == self.sides.theirs {
            Ok(())
        } else {
            wrong("by the rules written here both sides are wrong")
        }
    }

    fn check(&mut self) -> Checked {
        if self.known && self.past.ram != self.sides.theirs.ram {
            return wrong("not the RAM that the steps make");
        }
        if self.known && self.on_hand() as usize != self.past.on_hand {
            return wrong("not the steps on hand");
        }
        if self.kept {
            self.met.afresh += 1;
            if self.past.index() != self.sides.theirs.index {
                return wrong("not the index that is worked out afresh");
            }
        }
        Ok(())
    }

    /// Goes back to before the step that last wrote a word: there the word has the
    /// old value, and one step on the new one.
    pub fn go_and_look(&mut self, dice: &mut Dice) -> Checked {
        let places = places(self.frames).into_iter();
        let written: Vec<LastWrite> =
            places.filter_map(|place| self.past.last_write(place as usize)).collect();
        if written.is_empty() {
            return Ok(());
        }
        let (steps, clock, change) = dice.pick(&written);
        let place = change.place;
        self.take_back(steps as u64)?;
        let before = (self.past.word(place), self.sides.machine().clock.wrapping_add(1));
        if before != (change.old, clock) {
            return wrong(format!("{steps} steps back the word and the clock are {before:x?}"));
        }
        self.run(1, 0)?;
        let after = (self.past.word(place), self.sides.machine().clock);
        if after != (change.new, clock) {
            return wrong(format!("one step on the word and the clock are {after:x?}"));
        }
        self.met.looked += 1;
        Ok(())
    }
}

pub fn clock(dice: &mut Dice, slots: usize) -> u64 {
    let near = u64::from(dice.below(40 + slots as u32));
    match dice.below(6) {
        0 => u64::MAX - near,
        1 => (1 << 32) - near,
        2 => dice.any_size(),
        _ => 0,
    }
}
