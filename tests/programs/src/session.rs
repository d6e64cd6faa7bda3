//! One program, run to its end in calls of any budget, on both sides.

use crate::dice::Dice;
use crate::lavushmir;
use crate::mode::Mode;
use crate::station::{Roms, Station};
use reference::diskless::{reset, run_with_records};
use reference::{Machine, EXCEPTION, TWO_MATCHES};

const INTERRUPT: u32 = 0;
const MISS_ON_LOAD: u32 = 2;
const MISS_ON_STORE: u32 = 3;
const SYSTEM_CALL: u32 = 8;

const WRITE: u32 = 4004;
const EXIT: u32 = 4001;

/// Far more steps than any program takes.
pub const TOO_MANY: u64 = 20_000_000;

/// How a program ended.
#[derive(Clone, Copy, PartialEq, Eq, Debug)]
pub enum End {
    Exit(u32),
    Exception(u32),
    /// A call that there is not, or of bytes that there are not.
    BadCall,
    /// Not within the limit.
    Never,
}

/// An interrupt or a miss that the program did not notice.
#[derive(Clone, Copy, PartialEq, Eq, Debug)]
pub struct Met {
    pub code: u32,
    /// BD.
    pub in_slot: bool,
    pub epc: u32,
    pub bad_vaddr: u32,
}

impl Met {
    fn of(machine: &Machine) -> Met {
        let Machine { cause, epc, bad_vaddr, .. } = *machine;
        Met { code: cause >> 2 & 31, in_slot: cause >> 31 == 1, epc, bad_vaddr }
    }

    pub fn is_interrupt(&self) -> bool {
        self.code == INTERRUPT
    }
}

pub struct Outcome {
    pub end: End,
    pub written: Vec<u8>,
    pub steps: u64,
    pub calls: u64,
    pub met: Vec<Met>,
    /// The archive's side.
    pub station: Station,
}

struct Session<'a> {
    roms: &'a Roms,
    ours: Station,
    theirs: Station,
    steps: u64,
    calls: u64,
}

/// An error says where the archive differs from the reference.
pub fn run(
    start: Station,
    roms: &Roms,
    mode: Mode,
    delay: u64,
    limit: u64,
    dice: &mut Dice,
) -> Result<Outcome, String> {
    let mut session = Session { roms, ours: start.clone(), theirs: start, steps: 0, calls: 0 };
    session.reset(delay)?;
    let (mut written, mut met) = (Vec::new(), Vec::new());
    let end = loop {
        if session.steps > limit {
            break End::Never;
        }
        if !session.stopped_at_exception(dice)? {
            continue;
        }
        let machine = session.ours.machine();
        match machine.cause >> 2 & 31 {
            INTERRUPT if mode != Mode::Plain => met.push(Met::of(&machine)),
            MISS_ON_LOAD | MISS_ON_STORE if mode == Mode::Paged => met.push(Met::of(&machine)),
            SYSTEM_CALL => match system_call(&machine, &session.ours, &mut written) {
                None => continue,
                Some(end) => break end,
            },
            code => break End::Exception(code),
        }
    };
    let Session { ours, steps, calls, .. } = session;
    Ok(Outcome { end, written, steps, calls, met, station: ours })
}

/// What the host does for a call: nothing to the machine. Some: it was the last.
fn system_call(machine: &Machine, station: &Station, written: &mut Vec<u8>) -> Option<End> {
    let [number, first, second, third] = [2, 4, 5, 6].map(|at: usize| machine.registers[at]);
    if number == EXIT {
        return Some(End::Exit(first));
    }
    match station.bytes(second, third) {
        Some(bytes) if number == WRITE => {
            written.extend(bytes);
            None
        }
        _ => Some(End::BadCall),
    }
}

impl Session<'_> {
    fn reset(&mut self, delay: u64) -> Result<(), String> {
        let Station { image, index, .. } = &mut self.ours;
        let ours = lavushmir::reset(image, index, 1, delay, 0xFF);
        let Station { image, index, .. } = &mut self.theirs;
        let theirs = reset(image, index, 1, delay, 0xFF).packed();
        self.compared("reset", ours, theirs)
    }

    /// One call on both sides; whether an exception stopped it.
    fn stopped_at_exception(&mut self, dice: &mut Dice) -> Result<bool, String> {
        let bits = dice.between(0, 19);
        let budget = u64::from(dice.below(2 << bits)).min(1_000_000);
        let stop = dice.pick(&[1, 2, 1 << 32, u64::MAX]);
        let Roms { execution, bootstrap } = self.roms;
        let Station { image, ram, paper, journal, index } = &mut self.ours;
        let ours =
            lavushmir::run(image, execution, bootstrap, ram, paper, journal, index, budget, stop);
        let Station { image, ram, paper, journal, index } = &mut self.theirs;
        let answer =
            run_with_records(image, execution, bootstrap, ram, paper, journal, index, budget, stop);
        self.compared(&format!("a run of {budget}"), ours, answer.packed())?;
        if answer.number != 0 {
            return Err(format!("after {} steps: refused with {}", self.steps, answer.number));
        }
        if answer.reason == TWO_MATCHES {
            return Err(format!("after {} steps: two matches", self.steps));
        }
        self.calls += 1;
        self.steps += u64::from(answer.steps);
        Ok(answer.reason == EXCEPTION)
    }

    fn compared(&self, call: &str, ours: u64, theirs: u64) -> Result<(), String> {
        let wrong = if ours != theirs {
            Some(format!("answer {ours:#x}, not {theirs:#x}"))
        } else {
            self.ours.differs_from(&self.theirs)
        };
        match wrong {
            None => Ok(()),
            Some(wrong) => Err(format!("after {} steps, {call}: {wrong}", self.steps)),
        }
    }
}
