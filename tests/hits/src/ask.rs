//! One question: the stub is asked, and what it says and leaves behind is judged.

use crate::due::{Limit, Rule, Seen, Stop, Way};
use crate::faults::Fault;
use crate::met::Met;
use crate::points::Watch;
use crate::talk::{self, Answer, Nudge, Told};
use crate::world::World;
use crate::wrong;

const PC: u32 = 37;
const STATUS: u32 = 32;
const LO: u32 = 33;
const HI: u32 = 34;

fn register(world: &World, number: u32) -> Option<u32> {
    let machine = &world.past.machine;
    match number {
        0..=31 => Some(machine.registers[number as usize]),
        STATUS => Some(machine.status.0),
        LO => Some(machine.lo),
        HI => Some(machine.hi),
        PC => Some(machine.pc),
        _ => None,
    }
}

/// The stop that is told, beside the one that is due.
fn judge_told(world: &World, told: &Told, due: &Stop, question: &str) {
    let pc = world.past.machine.pc;
    for &(number, value) in &told.registers {
        if let Some(due) = register(world, number) {
            assert_eq!(value, due, "{question}: register {number:#x}");
        }
    }
    assert!(told.registers.iter().any(|&(number, _)| number == PC), "{question}: no PC");
    let signal = if *due == Stop::Interrupted { 2 } else { 5 };
    if *due == Stop::TwoMatches {
        // Which signal this is, no document says; that nobody asked for it is sure.
        assert!(told.signal != 2, "{question}: a halt is no interrupt");
    } else {
        assert_eq!(told.signal, signal, "{question}: the signal");
    }
    assert_eq!(told.begin, *due == Stop::HistoryBegins, "{question}: the history's begin");
    for (told, asked, kind) in [(told.swbreak, world.swbreak, 0), (told.hwbreak, world.hwbreak, 1)]
    {
        assert!(!told || asked, "{question}: a kind of break that gdb does not know");
        let there = world.points.has_kind_at(kind, pc);
        assert!(!told || there, "{question}: a break where there is none");
    }
    match due {
        Stop::Watch(hit) => {
            let holds = |watch: &Watch, at: u32| at.wrapping_sub(watch.address) < watch.bytes;
            let at = told.watch.unwrap_or_else(|| panic!("{question}: no watch told"));
            let inside = hit.iter().any(|watch| holds(watch, at));
            assert!(inside, "{question}: watch {at:#x}, hit are {hit:x?}");
        }
        _ => assert_eq!(told.watch, None, "{question}: a watch told"),
    }
}

/// Every lent byte beside the reference's.
fn judge_bytes(world: &World, question: &str) {
    let (stub, due) = (&world.stub, &world.past.due);
    let differ = |now: &[u8], due: &[u8]| now.iter().zip(due).position(|(now, due)| now != due);
    let found = differ(stub.image.content(), &due.image);
    assert_eq!(found, None, "{question}: the first byte of the image that differs");
    let found = differ(stub.ram.content(), &due.ram);
    assert_eq!(found, None, "{question}: the first byte of RAM that differs");
    let found = differ(stub.paper.content(), &due.paper);
    assert_eq!(found, None, "{question}: the first byte of the paper that differs");
    let found = if stub.journal.content() == &due.journal[..] {
        None
    } else {
        differ(stub.journal.content(), &due.journal)
    };
    assert_eq!(found, None, "{question}: the first byte of the journal that differs");
    let found = differ(stub.index.content(), &due.index);
    assert_eq!(found, None, "{question}: the first byte of the index that differs");
}

/// What a stop is called, to be compared.
fn is_same(told: &Told, due: &Stop) -> bool {
    match due {
        Stop::Open => false,
        Stop::Watch(_) => told.watch.is_some(),
        Stop::HistoryBegins => told.begin,
        Stop::Interrupted => told.signal == 2,
        _ => told.watch.is_none() && !told.begin,
    }
}

/// Whether the session can be asked further questions.
pub fn resume(
    world: &mut World,
    way: Way,
    nudge: Nudge,
    fault: Option<Fault>,
    met: &mut Met,
) -> bool {
    let packet = way.packet();
    let began = talk::clock(&world.stub);
    let nudge = if world.kept_interrupt { Nudge::Never } else { nudge };
    let Answer { reply, nudged, errors } = talk::ask(&mut world.stub, &packet, nudge, false);
    let mut told =
        talk::stop(&reply).unwrap_or_else(|| panic!("{packet}: no stop is told: {reply}"));
    let went = talk::clock(&world.stub).wrapping_sub(began) as i64;
    let question = format!("{packet}, {nudge:?}, {:x?}: {reply}", world.points);
    wrong::say(fault, world, &mut told);

    let back = way.is_back();
    let kept = world.kept_interrupt && fault != Some(Fault::KeptInterruptDropped);
    let interrupted = told.signal == 2 && nudged;
    let limit = match interrupted {
        true => Limit::Interrupted(went.unsigned_abs()),
        false => Limit::Most(went.unsigned_abs() + 1),
    };
    let points = &world.ever;
    let seen = Seen::default();
    let rule = Rule { points, way, limit, fault, seen: &seen };
    let before = world.past.on_hand();
    let began_at = world.past.machine.clone();
    let (steps, due) = match () {
        _ if kept => (0, Stop::Interrupted),
        _ if back => rule.back(&mut world.past),
        _ => rule.forward(&mut world.past),
    };
    let due_went = if back { -(steps as i64) } else { steps as i64 };
    assert_eq!(went, due_went, "{question}: steps; due is {due:?}");
    assert!(is_same(&told, &due), "{question}: due is {due:x?} after {steps} steps");
    judge_told(world, &told, &due, &question);
    // Why a machine halts may be said to the person at gdb; nothing else is.
    assert!(
        errors.is_empty() || due == Stop::TwoMatches,
        "{question}: on standard error: {errors}"
    );
    if back {
        world.past.take_back_due(steps);
    } else {
        world.past.run_due(steps);
    }
    wrong::leave(fault, world);
    judge_bytes(world, &question);

    met.count(world, way, &due, steps, before, &began_at, &seen);
    met.interrupted_on_a_break += u64::from(
        due == Stop::Interrupted
            && steps > 0
            && world.points.breaks_at(None, world.past.machine.pc),
    );
    met.kept_interrupts += u64::from(kept);
    world.before_a_store = !back && matches!(due, Stop::Watch(_));
    world.kept_interrupt = nudged && !interrupted;
    // Whether a Ctrl-C that comes too late is kept is not said.
    !(matches!(nudge, Nudge::Event(_)) && world.kept_interrupt) && due != Stop::Open
}
