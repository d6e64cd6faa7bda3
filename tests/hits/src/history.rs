//! One random machine, and questions about it.

use crate::ask::resume;
use crate::choose;
use crate::dice::Dice;
use crate::due::Way;
use crate::faults::Fault;
use crate::met::Met;
use crate::points::Points;
use crate::talk::Nudge;
use crate::world::World;

/// Points that gdb leaves out when it goes on from one of them: the break points at
/// PC, and the watch whose store was met.
fn stepped_off(dice: &mut Dice, world: &World, points: &Points) -> Option<(Points, Way)> {
    let pc = world.past.machine.pc;
    let mut others = points.clone();
    if points.breaks.iter().any(|point| point.address == pc) {
        others.breaks.retain(|point| point.address != pc);
        return Some((others, Way::Step));
    }
    let store = world.past.newest_store();
    let is_behind = |store| points.watches.iter().any(|watch| watch.is_hit(None, store));
    if world.before_a_store || store.map_or(false, is_behind) {
        others.watches.clear();
        let way = if world.before_a_store { Way::Step } else { Way::BackStep };
        return Some((others, if dice.chance(4) { Way::BackStep } else { way }));
    }
    None
}

fn go(
    dice: &mut Dice,
    world: &mut World,
    points: &Points,
    way: Option<Way>,
    nudge: Option<Nudge>,
    fault: Option<Fault>,
    met: &mut Met,
) -> bool {
    let mut due = points.clone();
    due.watches.retain(|watch| world.is_determined(watch));
    world.set_points(&due, fault, met);
    let way = way.unwrap_or_else(|| choose::way(dice, world));
    let nudge = nudge.unwrap_or_else(|| choose::nudge(dice, way));
    let goes_on = resume(world, way, nudge, fault, met);
    if world.gdb_manner {
        world.set_points(&Points::default(), fault, met);
    }
    goes_on
}

pub fn live(dice: &mut Dice, most: u64, fault: Option<Fault>, met: &mut Met) {
    let mut world = World::new(dice, met);
    met.worlds += 1;
    let mut points = Points::default();
    let until = met.questions + most.min(dice.between(15, 50).into());
    while met.questions < until {
        choose::points(dice, &mut world, &mut points);
        if dice.chance(30) && !world.kept_interrupt {
            world.interrupt_nothing();
        }
        let off = if dice.chance(2) { None } else { stepped_off(dice, &world, &points) };
        if let Some((others, way)) = off {
            if !go(dice, &mut world, &others, Some(way), None, fault, met) {
                return;
            }
        }
        if world.past.on_hand() < world.past.slots / 3 && dice.chance(2) {
            // A history that is long enough to be looked through.
            let (none, nudge) = (Points::default(), Nudge::Byte(4_000));
            if !go(dice, &mut world, &none, Some(Way::Continue), Some(nudge), fault, met) {
                return;
            }
        }
        if met.questions < until && !go(dice, &mut world, &points, None, None, fault, met) {
            return;
        }
    }
}
