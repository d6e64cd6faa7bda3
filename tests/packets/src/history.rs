//! One station, and inputs until the session ends.

use crate::damage::{self, Input};
use crate::dice::Dice;
use crate::faults::Fault;
use crate::judge::{acks_after, judge, Acknowledges, Verdict};
use crate::kinds::KINDS;
use crate::met::Met;
use crate::session::{Brought, Session};
use crate::stub::{Event, Wants};
use crate::world::{stubs, trust, Trust};

/// Longer ones are not handed over byte by byte.
const MOST_CUT: usize = 400;

fn begin(session: &mut Session, trust: Trust) {
    let turn = session.turn(Event::Start);
    if trust == Trust::Plain {
        assert_eq!(turn.wants, Wants::Input, "after the start");
    }
}

/// Whether half a packet has come. Bytes outside of packets may wait for long.
fn is_half(session: &Session) -> bool {
    session.stub.waiting.contains(&b'$')
}

/// Half a packet is ended by a sum, which is wrong as a rule.
fn clean(session: &mut Session, acks: Acknowledges, is_sure: bool, can_save: bool) -> Brought {
    let mut all = Brought::default();
    for _ in 0..4 {
        if !is_half(session) || all.ended.is_some() {
            return all;
        }
        let brought = session.feed(b"#00", can_save);
        judge(b"#00", acks, &brought, is_sure);
        all.ended = brought.ended;
    }
    let left = !is_half(session) || all.ended.is_some() || !is_sure;
    let rest = session.stub.waiting.escape_ascii().to_string();
    assert!(left, "half a packet is never done with: {rest}");
    session.stub.waiting.clear();
    all
}

fn same(one: &Session, other: &Session) -> bool {
    let (one, other) = (&one.stub, &other.stub);
    one.image.content() == other.image.content()
        && one.ram.content() == other.ram.content()
        && one.paper.content() == other.paper.content()
        && one.journal.content() == other.journal.content()
        && one.index.content() == other.index.content()
}

/// The other session gets the same bytes in parts, and says the same.
fn cut(
    dice: &mut Dice,
    one: &Session,
    other: &mut Session,
    bytes: &[u8],
    brought: &Brought,
    can_save: bool,
    met: &mut Met,
) -> bool {
    let most = dice.pick(&[1, 1, 3, 40]);
    let parts = other.feed_cut(dice, bytes, most, can_save);
    // A run that gdb has to end ends somewhere; with the byte 3 inside it matters when.
    if brought.nudged || parts.nudged || bytes.contains(&3) {
        return false;
    }
    let text = bytes.escape_ascii().to_string();
    assert_eq!(parts, *brought, "{text}: in parts of up to {most} bytes");
    assert!(same(one, other), "{text}: the station, in parts of up to {most} bytes");
    met.cut += 1;
    true
}

fn finish(dice: &mut Dice, session: &mut Session, is_sure: bool, met: &mut Met) {
    if dice.chance(2) && is_sure {
        // In the middle of a run as well.
        session.stub.waiting.extend(crate::packet::framed(b"vCont;c"));
        session.turn(Event::GoOn);
    }
    let can_save = dice.chance(2);
    let brought = session.until_input(Event::EndOfInput, can_save);
    if is_sure {
        assert!(brought.ended.is_some(), "the input has ended, and the session has not");
    }
    judge(b"", None, &Brought { said: Vec::new(), ..brought }, is_sure);
    met.finished += 1;
}

pub fn live(dice: &mut Dice, most: u64, fault: Option<Fault>, met: &mut Met) {
    let trust = trust(dice);
    let is_sure = matches!(trust, Trust::Plain | Trust::AnyBytes);
    met.by_trust[trust as usize] += 1;
    let twins = trust == Trust::Plain;
    let mut both = stubs(dice, trust, 1 + usize::from(twins)).into_iter();
    let mut session = Session::new(both.next().expect("a stub"), fault);
    let mut other = both.next().map(|stub| Session::new(stub, fault));
    begin(&mut session, trust);
    other.iter_mut().for_each(|other| begin(other, trust));
    let mut acks = Some(true);
    let until = met.inputs + most.min(dice.between(20, 200).into());
    while met.inputs < until {
        if trust == Trust::AnyWords && dice.chance(3) {
            session.stub.set_words(|| dice.any_size());
        }
        if trust != Trust::Plain && dice.chance(10) {
            let event = dice.pick(&[0, 1, 3, 4, 5, 7, 8, 9, 13, 99, u64::MAX]);
            session.stub.turn_of(event);
            acks = None;
            met.odd_events += 1;
            // Whatever that began is over before the next input.
            if session.until_input(Event::GoOn, true).ended.is_some() {
                return;
            }
        }
        let Input { sort, kind, mut bytes } = damage::input(dice);
        if fault == Some(Fault::StallsWithAFullBuffer) && dice.chance(20) {
            bytes = damage::long(dice);
        }
        let can_save = dice.chance(2);
        met.inputs += 1;
        met.by_sort[sort as usize] += 1;
        met.by_kind[kind.unwrap_or(KINDS.len())] += 1;
        met.longest = met.longest.max(bytes.len() as u64);
        let brought = session.feed(&bytes, can_save);
        let verdict = judge(&bytes, acks, &brought, is_sure);
        met.count(verdict, &brought, kind);
        if let Some(second) = other.as_mut().filter(|_| bytes.len() <= MOST_CUT) {
            if !cut(dice, &session, second, &bytes, &brought, can_save, met) {
                other = None;
            }
        } else {
            other = None;
        }
        acks = acks_after(&bytes, acks, &brought);
        let is_over = |brought: &Brought| brought.ended.is_some();
        if is_over(&brought) {
            return;
        }
        if is_half(&session) {
            let cleaned = clean(&mut session, acks, is_sure, can_save);
            if let Some(second) = other.as_mut() {
                clean(second, acks, is_sure, can_save);
            }
            if is_over(&cleaned) {
                return;
            }
        } else if verdict == Verdict::Replied && acks == Some(true) && dice.chance(4) {
            let brought = session.feed(b"+", can_save);
            assert!(brought.said.is_empty(), "+ is answered");
            other.iter_mut().for_each(|other| drop(other.feed(b"+", can_save)));
        }
    }
    finish(dice, &mut session, is_sure, met);
}
