//! What gdb sends, and what the stub says to it.

use crate::packet::{framed, heard, Heard};
use crate::stub::{Event, Stub, Wants};
use reference::decode;

/// More turns than any question needs.
const MOST_TURNS: u32 = 20_000;

const INTERRUPT: u8 = 3;

/// A stop, as `T` tells it.
#[derive(Clone, PartialEq, Eq, Debug, Default)]
pub struct Told {
    pub signal: u32,
    pub registers: Vec<(u32, u32)>,
    pub watch: Option<u32>,
    pub begin: bool,
    pub swbreak: bool,
    pub hwbreak: bool,
}

/// How a run is ended that nothing else ends.
#[derive(Clone, Copy, PartialEq, Eq, Debug)]
pub enum Nudge {
    /// By the byte 3, after so many steps.
    Byte(u64),
    /// By the event of a Ctrl-C, after so many steps.
    Event(u64),
    /// By the byte 3 right behind the packet.
    AtOnce,
    Never,
}

pub fn clock(stub: &Stub) -> u64 {
    decode(stub.image.content()).clock
}

/// What came of a packet.
pub struct Answer {
    pub reply: String,
    /// Whether the nudge was given.
    pub nudged: bool,
    /// What was said on standard error.
    pub errors: String,
}

/// The one packet that the stub says.
pub fn ask(stub: &mut Stub, said: &str, nudge: Nudge, acknowledged: bool) -> Answer {
    stub.waiting.extend(framed(said.as_bytes()));
    let began = clock(stub);
    let mut nudged = nudge == Nudge::AtOnce;
    if nudged {
        stub.waiting.push(INTERRUPT);
    }
    let mut event = Event::GoOn;
    let (mut out, mut errors) = (Vec::new(), String::new());
    for _ in 0..MOST_TURNS {
        let turn = stub.turn(event);
        errors.push_str(&String::from_utf8_lossy(&turn.errors));
        out.extend(turn.said);
        event = Event::GoOn;
        match turn.wants {
            _ if out.contains(&b'#') => {
                stub.check_far();
                let reply = reply(said, &out, acknowledged);
                return Answer { reply, nudged, errors };
            }
            Wants::Input => panic!("{said}: more input is wanted, and nothing was said"),
            Wants::GoOn => {}
            wants => panic!("{said}: {wants:?} is wanted"),
        }
        let went = clock(stub).wrapping_sub(began) as i64;
        match nudge {
            Nudge::Byte(after) if !nudged && went.unsigned_abs() >= after => {
                stub.waiting.push(INTERRUPT);
                nudged = true;
            }
            Nudge::Event(after) if !nudged && went.unsigned_abs() >= after => {
                event = Event::Interrupt;
                nudged = true;
            }
            _ => {}
        }
    }
    panic!("{said}: no reply in {MOST_TURNS} turns")
}

fn reply(said: &str, out: &[u8], acknowledged: bool) -> String {
    let text = || String::from_utf8_lossy(out).into_owned();
    let mut all = heard(out).unwrap_or_else(|| panic!("{said}: no whole packets: {}", text()));
    if acknowledged {
        assert_eq!(all.first(), Some(&Heard::Plus), "{said}: no +: {}", text());
        all.remove(0);
    }
    match &all[..] {
        [Heard::Packet(packet)] => String::from_utf8_lossy(packet).into_owned(),
        _ => panic!("{said}: not one packet: {}", text()),
    }
}

fn number(text: &str) -> Option<u32> {
    // gdb masks an address to 32 bits.
    u64::from_str_radix(text, 16).ok().map(|number| number as u32)
}

fn part(told: &mut Told, key: &str, value: &str) -> Option<()> {
    match key {
        "watch" => told.watch = Some(number(value)?),
        "replaylog" if value == "begin" => told.begin = true,
        "swbreak" if value.is_empty() => told.swbreak = true,
        "hwbreak" if value.is_empty() => told.hwbreak = true,
        "thread" => {}
        _ => {
            let bytes = crate::packet::from_hex(value).filter(|bytes| bytes.len() == 4)?;
            let value = u32::from_le_bytes(bytes.try_into().ok()?);
            told.registers.push((number(key).filter(|key| *key < 82)?, value));
        }
    }
    Some(())
}

pub fn stop(reply: &str) -> Option<Told> {
    let signal = number(reply.strip_prefix('T')?.get(..2)?)?;
    let mut told = Told { signal, ..Told::default() };
    for pair in reply[3..].split_terminator(';') {
        let (key, value) = pair.split_once(':')?;
        part(&mut told, key, value)?;
    }
    Some(told)
}
