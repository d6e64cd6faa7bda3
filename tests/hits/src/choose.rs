//! What to ask: points where something is likely to happen, and the way to go.

use crate::dice::Dice;
use crate::due::Way;
use crate::past::Coming;
use crate::points::{Break, Points, Watch};
use crate::program::*;
use crate::talk::Nudge;
use crate::world::World;

const MOST_BREAKS: usize = 4;
const MOST_WATCHES: usize = 2;

/// One that is met late, and so seldom, or any.
fn late(dice: &mut Dice, from: &[u32]) -> Option<u32> {
    let first = if dice.chance(2) { from.len() * 7 / 8 } else { 0 };
    let count = (from.len() - first) as u32;
    (count > 0).then(|| from[first + dice.below(count.max(1)) as usize])
}

/// What is met on the way, ahead or behind.
fn coming(dice: &mut Dice, world: &World) -> Coming {
    let steps = dice.pick(&[40, 300, 2_000, 6_000]);
    if dice.chance(2) {
        world.past.ahead(steps)
    } else {
        world.past.behind(steps)
    }
}

fn pc(dice: &mut Dice, world: &World, coming: &Coming) -> u32 {
    let any = world.plan.home.start() + 4 * dice.below(60);
    match dice.below(10) {
        0 => any,
        1 => dice.pick(&[BOOTSTRAP, BOOTSTRAP + 0x100, BOOTSTRAP + 0x180]),
        _ => late(dice, &coming.pcs).unwrap_or(any),
    }
}

/// Bytes of RAM around a word, by an address that leads to them without a doubt as
/// the machine stands now and stays: page 0 is given other frames by the programs.
fn watch(dice: &mut Dice, world: &World, coming: &Coming) -> Option<Watch> {
    let bytes = dice.pick(&[1, 1, 2, 2, 4, 4, 8]);
    let met = late(dice, &coming.places).filter(|_| !dice.chance(6));
    let around = met.unwrap_or_else(|| dice.pick(&PLACES)) + dice.below(4);
    let place = around.saturating_sub(dice.below(bytes));
    let base = if world.past.machine.status.0 & 1 << 24 == 0 {
        RAM_BASE
    } else {
        let frame = place >> 12;
        let page = (1..FRAMES).find(|&page| world.plan.behind[page as usize] == frame)?;
        PAGES + (page << 12) - (frame << 12)
    };
    let watch = Watch { address: base + place, bytes, place };
    world.is_determined(&watch).then_some(watch)
}

/// A break point at a step on hand that changed a watched byte, or may have.
fn at_a_store(dice: &mut Dice, world: &World, points: &Points) -> Option<Break> {
    let (past, watch) = (&world.past, points.watches.first()?);
    let from = dice.below(past.on_hand() as u32 + 1) as usize;
    let of_word = |store: (u32, u32)| store.0 == watch.place & !3;
    let moment =
        past.moments.iter().skip(from).find(|moment| moment.store.map_or(false, of_word))?;
    let point = Break { kind: dice.below(2), address: moment.machine.pc };
    (!points.breaks.contains(&point)).then_some(point)
}

/// Another set of points: mostly the one there is, with one more or one less;
/// sometimes one point alone, so that the way to it can be long.
pub fn points(dice: &mut Dice, world: &mut World, points: &mut Points) {
    let coming = coming(dice, world);
    let mut breaks = dice.below(3);
    let mut watches = dice.below(3);
    match dice.below(8) {
        0 => *points = Points::default(),
        1 => {
            *points = Points::default();
            (breaks, watches) = (1, 0);
        }
        2 | 3 => {
            points.breaks.clear();
            (breaks, watches) = (0, 1);
        }
        _ => {
            if !points.breaks.is_empty() && dice.chance(3) {
                let one = dice.below(points.breaks.len() as u32) as usize;
                points.breaks.remove(one);
            }
            if !points.watches.is_empty() && dice.chance(3) {
                let one = dice.below(points.watches.len() as u32) as usize;
                points.watches.remove(one);
            }
        }
    }
    for _ in 0..breaks {
        let point = Break { kind: dice.below(2), address: pc(dice, world, &coming) };
        let is_new = !points.breaks.contains(&point);
        if points.breaks.len() < MOST_BREAKS && is_new && point.address % 4 == 0 {
            points.breaks.push(point);
        }
    }
    if points.breaks.len() < MOST_BREAKS && dice.chance(4) {
        points.breaks.extend(at_a_store(dice, world, points));
    }
    for _ in 0..watches {
        let one = watch(dice, world, &coming);
        let is_new = |one: &Watch| points.watches.iter().all(|other| other.text() != one.text());
        if points.watches.len() < MOST_WATCHES {
            points.watches.extend(one.filter(is_new));
        }
    }
}

/// A range around PC that is left sooner or later, as a rule.
fn range(dice: &mut Dice, pc: u32) -> Way {
    let from = pc.wrapping_sub(4 * dice.below(8));
    let to = pc.wrapping_add(4 * dice.below(12));
    if from > to {
        return Way::Step;
    }
    Way::Range(from, to)
}

pub fn way(dice: &mut Dice, world: &World) -> Way {
    if world.past.on_hand() == 0 && !dice.chance(4) {
        return Way::Continue;
    }
    match dice.below(16) {
        0..=4 => Way::Continue,
        5..=9 => Way::BackContinue,
        10 => Way::Step,
        11 | 12 => Way::BackStep,
        13 | 14 => {
            let pc = world.past.machine.pc;
            // Whether a range looks at its first PC is not said.
            if world.points.breaks.iter().any(|point| point.address == pc) {
                return Way::Step;
            }
            range(dice, pc)
        }
        _ => dice.pick(&[Way::Continue, Way::BackContinue]),
    }
}

pub fn nudge(dice: &mut Dice, way: Way) -> Nudge {
    match way {
        Way::Continue | Way::Range(..) => match dice.below(16) {
            0 => Nudge::AtOnce,
            1 => Nudge::Event(dice.pick(&[0, 1_500])),
            _ => Nudge::Byte(dice.pick(&[0, 1_500, 4_000, 9_000, 9_000])),
        },
        Way::BackContinue => match dice.below(16) {
            0 => Nudge::AtOnce,
            1 => Nudge::Byte(dice.pick(&[0, 1_500])),
            _ => Nudge::Never,
        },
        _ if dice.chance(40) => Nudge::AtOnce,
        _ => Nudge::Never,
    }
}
