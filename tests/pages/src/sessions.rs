//! Several runs and take-backs in a row on one machine: the archive's answers
//! and every byte beside the reference's.

use crate::call::Call;
use crate::changes::{Changes, CALL, TAKE_BACK};
use crate::dice::Dice;
use crate::met::Met;
use crate::scene::scene;
use crate::sides::{Buffers, Sides};
use crate::stale;
use crate::watch::watch;
use reference::{Answer, TWO_MATCHES};

struct Session {
    sides: Sides,
    scene: Call,
    began: Buffers,
    changes: Changes,
    /// Steps run less steps taken back.
    net: u64,
    /// The last run stopped before two matches.
    halted: bool,
}

impl Session {
    /// The machine as it stands, for looking at the run to come.
    fn now(&self) -> Call {
        let Buffers { image, ram, .. } = self.sides.theirs.clone();
        Call { image, ram, ..self.scene.clone() }
    }

    fn run(&mut self, dice: &mut Dice, met: &mut Met) -> Result<(), Vec<String>> {
        let budget = u64::from(match dice.below(8) {
            0 => dice.below(2),
            1..=3 => dice.between(1, 12),
            _ => dice.between(8, 150),
        });
        let stop = u64::from(dice.chance(6));
        let before = self.now();
        let answer = self.sides.run(budget, stop)?;
        met.ran(answer, self.scene.slots());
        self.net += u64::from(answer.steps);
        self.halted = answer.reason == TWO_MATCHES;
        self.changes.happened(CALL);
        watch(&before, answer, &self.sides.theirs, &mut self.changes, met)
    }

    fn take_back(&mut self, dice: &mut Dice, met: &mut Met) -> Result<(), Vec<String>> {
        let on_hand = self.sides.machine().on_hand;
        let steps = match dice.below(8) {
            0 => on_hand + 1,
            1 => on_hand,
            _ => dice.between(on_hand.min(1), on_hand.min(24)),
        };
        let answer = self.sides.take_back(steps.into())?;
        if steps > on_hand {
            met.refused += 1;
            return expected(answer, Answer::refused(7));
        }
        met.take_backs += 1;
        met.taken_back += u64::from(steps);
        self.net -= u64::from(steps);
        self.halted &= steps == 0;
        self.changes.happened(TAKE_BACK);
        if dice.chance(4) && !self.sides.is_behind(&self.began, self.net) {
            return Err(vec![format!("not the state of {} steps from the start", self.net)]);
        }
        expected(answer, Answer::done(0, steps))
    }
}

fn expected(answer: Answer, wanted: Answer) -> Result<(), Vec<String>> {
    if answer == wanted {
        Ok(())
    } else {
        Err(vec![format!("both answered {answer:?}, not {wanted:?}")])
    }
}

pub fn one(dice: &mut Dice, met: &mut Met) -> Result<(), Vec<String>> {
    stale::new_session();
    let scene = scene(dice);
    let sides = Sides::new(scene.clone());
    let began = sides.beginning();
    let changes = Changes::default();
    let mut session = Session { sides, scene, began, changes, net: 0, halted: false };
    for _ in 0..dice.between(4, 9) {
        let back = dice.chance(if session.halted { 1 } else { 3 });
        if back && !session.sides.theirs.journal.is_empty() {
            session.take_back(dice, met)?;
        } else if session.halted && dice.chance(2) {
            break;
        } else {
            session.run(dice, met)?;
        }
    }
    Ok(())
}
