//! Runs and take-backs by the panel's lines, each beside the reference.

use crate::ask::{now, Kept};
use crate::dice::Dice;
use crate::met::Met;
use crate::screen::{self, Moved};
use crate::world::World;

/// The reference has run already.
fn follow(world: &mut World, line: &str, steps: u64, exception: bool) {
    let said = world.session.say(line);
    let due = Moved::Ran { steps, exception, now: now(world) };
    assert_eq!(screen::moved(&said.screen), due, "{line}");
    world.check(line);
}

pub fn run(world: &mut World, line: &str, steps: u64, stop: bool) {
    let taken = world.past.run(steps, stop);
    let exception = stop && taken > 0 && world.past.now().entered;
    follow(world, line, taken, exception);
}

fn run_to_store(world: &mut World, more: u64) {
    let mut steps = world.past.run_to_store(40);
    steps += world.past.run(more, false);
    follow(world, &format!("run {steps}"), steps, false);
}

pub fn any_run(dice: &mut Dice, world: &mut World, met: &mut Met) {
    let most = dice.pick(&[1, 5, 20, 60]);
    let steps = if dice.chance(40) { 0 } else { u64::from(dice.between(1, most)) };
    met.runs += 1;
    match dice.below(16) {
        0 => run(world, "stepi", 1, false),
        1 => run(world, "si", 1, false),
        2 => run(world, &format!("si {steps}"), steps, false),
        3 => run(world, &format!("stepi {steps:#x}"), steps, false),
        4 => run(world, &format!("run exception {steps}"), steps, true),
        5..=7 => run(world, &format!("run {steps}"), steps, false),
        _ => run_to_store(world, u64::from(dice.below(4))),
    }
}

/// Now and then more than are on hand, which is refused.
pub fn any_back(dice: &mut Dice, world: &mut World, met: &mut Met) {
    let on_hand = world.past.on_hand;
    let steps = match dice.below(8) {
        0 => on_hand + dice.any_size().max(1) / 2 + 1,
        1 => 1,
        2 => on_hand,
        3 => u64::from(dice.between(0, on_hand as u32)),
        _ => u64::from(dice.between(0, on_hand.min(8) as u32)),
    };
    let line = match dice.below(6) {
        0 => format!("rsi {steps}"),
        1 => format!("reverse-stepi {steps}"),
        2 if steps == 1 => dice.pick(&["rsi", "reverse-stepi"]).to_string(),
        _ => format!("back {steps}"),
    };
    let kept = Kept::of(world);
    let moved = screen::moved(&world.session.say(&line).screen);
    if steps > on_hand {
        assert_eq!(moved, Moved::Refused { number: 7 }, "{line}");
        met.back_refused += 1;
        return kept.check(world, &line);
    }
    world.past.take_back(steps);
    world.taken_back |= steps > 0;
    met.take_backs += 1;
    assert_eq!(moved, Moved::TookBack { steps, now: now(world) }, "{line}");
    world.check(&line);
    kept.check_journal(world, &line);
}
