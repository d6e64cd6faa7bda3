//! A session that is fed inputs, and what it says to each.

use crate::dice::Dice;
use crate::faults::Fault;
use crate::stub::{Event, Stub, Turn, Wants, IN_BYTES};

const INTERRUPT: u8 = 3;

/// A run is ended by gdb after so many turns that neither use nor say a byte.
const PATIENCE: u32 = 2;

/// More such turns than any input needs, and more turns at all.
const MOST_IDLE: u32 = 3_000;
const MOST_TURNS: u32 = 300_000;

/// What an input brought, until more is wanted.
#[derive(Clone, PartialEq, Eq, Debug, Default)]
pub struct Brought {
    pub said: Vec<u8>,
    pub errors: Vec<u8>,
    /// The exit status, where the session ended.
    pub ended: Option<u64>,
    /// A run was going on for so long that gdb ended it.
    pub nudged: bool,
}

/// What a wrong stub would answer in the place of a turn.
fn wrong(fault: Option<Fault>, turn: &mut Turn, event: Event) {
    let packet = turn.said.iter().position(|&byte| byte == b'$');
    let last = turn.said.len().saturating_sub(1);
    match fault {
        Some(Fault::ReplyMissing) => turn.said.truncate(packet.unwrap_or(last + 1)),
        Some(Fault::ReplyTwice) => {
            let again = turn.said[packet.unwrap_or(last)..].to_vec();
            turn.said.extend(again);
        }
        Some(Fault::SumWrong) if packet.is_some() => turn.said[last] ^= 1,
        Some(Fault::ReplyCut) if packet.is_some() => turn.said.truncate(last),
        Some(Fault::ByteBetween) if packet.is_some() => turn.said.push(b'\n'),
        Some(Fault::PlusMissing) => turn.said.retain(|&byte| byte != b'+'),
        Some(Fault::PlusTwice) if turn.said.first() == Some(&b'+') => turn.said.insert(0, b'+'),
        Some(Fault::PlusThoughNoneAskedFor) if packet == Some(0) => turn.said.insert(0, b'+'),
        Some(Fault::MinusMissing) if packet.is_none() => turn.said.retain(|&byte| byte != b'-'),
        Some(Fault::MinusForARightSum) if turn.said.first() == Some(&b'+') => turn.said[0] = b'-',
        Some(Fault::InterruptNotHeard) if event == Event::GoOn && packet.is_some() => {
            if turn.said.windows(3).any(|three| three == b"T02") {
                turn.said.clear();
                turn.wants = Wants::GoOn;
            }
        }
        Some(Fault::NeverEnds) if turn.wants == Wants::End => turn.wants = Wants::GoOn,
        Some(Fault::StatusUnknown) if turn.wants == Wants::End => turn.status = 77,
        _ => {}
    }
}

pub struct Session {
    pub stub: Stub,
    fault: Option<Fault>,
}

impl Session {
    pub fn new(stub: Stub, fault: Option<Fault>) -> Session {
        let mut session = Session { stub, fault };
        if let Some(fault) = fault {
            session.stub.tamper = crate::noticed::tamper(fault);
        }
        session
    }

    pub fn turn(&mut self, event: Event) -> Turn {
        let mut turn = self.stub.turn(event);
        wrong(self.fault, &mut turn, event);
        turn
    }

    /// Turns until more input is wanted or the session ends. `can_save`: what is
    /// answered where it is to be saved.
    pub fn until_input(&mut self, first: Event, can_save: bool) -> Brought {
        let mut brought = Brought::default();
        let mut event = first;
        let mut idle = 0;
        for _ in 0..MOST_TURNS {
            let lent = self.stub.waiting.len().min(IN_BYTES);
            let mut turn = self.turn(event);
            if self.fault == Some(Fault::StallsWithAFullBuffer) && lent == IN_BYTES {
                (turn.used, turn.wants) = (0, Wants::Input);
            }
            brought.said.extend(&turn.said);
            brought.errors.extend(&turn.errors);
            event = Event::GoOn;
            idle += u32::from(turn.used == 0 && turn.said.is_empty());
            assert!(idle < MOST_IDLE, "nothing comes of it in {idle} turns");
            match turn.wants {
                Wants::Input => {
                    let stalls = lent == IN_BYTES && turn.used == 0;
                    assert!(!stalls, "more input is wanted, but there is no room for it");
                    if self.stub.waiting.len() < IN_BYTES {
                        return brought;
                    }
                }
                // Behind other bytes the byte 3 would be a part of them.
                Wants::GoOn if turn.used == 0 && idle % PATIENCE == 0 => {
                    if self.stub.waiting.is_empty() && !brought.nudged {
                        self.stub.waiting.push(INTERRUPT);
                    } else {
                        event = Event::Interrupt;
                    }
                    brought.nudged = true;
                }
                Wants::GoOn => {}
                Wants::Save => event = if can_save { Event::Saved } else { Event::NotSaved },
                Wants::End => {
                    brought.ended = Some(turn.status);
                    return brought;
                }
            }
        }
        panic!("no end in {MOST_TURNS} turns");
    }

    /// The input at once, as far as the buffer for it goes.
    pub fn feed(&mut self, bytes: &[u8], can_save: bool) -> Brought {
        self.stub.waiting.extend(bytes);
        let brought = self.until_input(Event::GoOn, can_save);
        self.stub.check_far();
        brought
    }

    /// The input in parts of 1 to `most` bytes.
    pub fn feed_cut(
        &mut self,
        dice: &mut Dice,
        bytes: &[u8],
        most: u32,
        can_save: bool,
    ) -> Brought {
        let mut all = Brought::default();
        let mut rest = bytes;
        while !rest.is_empty() && all.ended.is_none() {
            let (part, behind) = rest.split_at((dice.between(1, most) as usize).min(rest.len()));
            rest = behind;
            let brought = self.feed(part, can_save);
            all.said.extend(brought.said);
            all.errors.extend(brought.errors);
            all.ended = brought.ended;
            all.nudged |= brought.nudged;
        }
        if self.fault == Some(Fault::CutsMatter) && bytes.len() > 1 {
            all.said.extend(b"+");
        }
        all
    }
}
