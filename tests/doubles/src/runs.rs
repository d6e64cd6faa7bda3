//! Random runs around two matches: the archive's answer and every byte beside
//! the reference's, and a second run from every halt.

use crate::call::Call;
use crate::dice::Dice;
use crate::met::Met;
use crate::scene::{scene, STOPS};
use crate::sides::Sides;
use crate::sight::watch;
use reference::{Answer, BUDGET_SPENT, EXCEPTION, TWO_MATCHES};

/// Enough to come back from a handler, and to what follows.
const MORE: u64 = 12;

pub fn one(dice: &mut Dice, bytes: &[u8], met: &mut Met) -> Result<(), Vec<String>> {
    let call = scene(dice, bytes);
    let mut sides = Sides::new(call.clone());
    let answer = sides.run(call.budget, call.stop)?;
    assert_eq!(answer.number, 0, "the scene keeps the rules");
    met.runs += 1;
    met.steps += u64::from(answer.steps);
    met.by_reason[answer.reason as usize] += 1;
    watch(&call, answer, |sight| met.see(sight))?;
    if answer.reason == EXCEPTION && dice.chance(2) {
        let behind = sides.run(MORE, call.stop)?;
        met.behind_a_stop += u64::from(behind.reason == TWO_MATCHES);
    }
    if answer.reason == TWO_MATCHES && dice.chance(2) {
        again(dice, &mut sides, met)?;
        if dice.chance(4) {
            met.just_that_budget += 1;
            just_that_budget(call, answer, &sides)?;
        }
    }
    Ok(())
}

/// From a halt with a budget: done, 0 steps, the same reason; without one: the
/// budget. Nothing changes.
fn again(dice: &mut Dice, sides: &mut Sides, met: &mut Met) -> Result<(), Vec<String>> {
    let before = sides.theirs.clone();
    let stop = if dice.chance(2) { 0 } else { dice.pick(&STOPS) };
    let budget = dice.pick(&[0, 1, 1, 2, 9, 1_000_000]);
    let answer = sides.run(budget, stop)?;
    let reason = if budget == 0 { BUDGET_SPENT } else { TWO_MATCHES };
    met.again += u64::from(budget != 0);
    met.again_with_none += u64::from(budget == 0);
    if answer != Answer::done(reason, 0) || before != sides.theirs {
        return Err(vec![format!("a second run from a halt: {answer:?}")]);
    }
    Ok(())
}

/// A run that was given just the steps before the halt leaves the same bytes:
/// the step that was not taken has no record, and moved nothing.
fn just_that_budget(call: Call, halted: Answer, after: &Sides) -> Result<(), Vec<String>> {
    let stop = call.stop;
    let mut sides = Sides::new(call);
    let answer = sides.run(halted.steps.into(), stop)?;
    if answer != Answer::done(BUDGET_SPENT, halted.steps) || sides.theirs != after.theirs {
        return Err(vec![format!("a run of just the budget of a halt: {answer:?}")]);
    }
    Ok(())
}
