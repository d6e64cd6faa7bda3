//! Each step of a run, and the step that it stopped before, looked at.

use crate::asm::TLBP;
use crate::call::Call;
use crate::look::{look, Access, Kind, Look};
use reference::{decode, step, Answer, Machine, NoRecord, TWO_MATCHES};

/// What became of a step that was looked at.
#[derive(Clone, Copy, PartialEq, Eq)]
pub enum End {
    /// Taken, with its ExcCode where it entered an exception.
    Taken(Option<u32>),
    /// The run stopped before it: two matches.
    Halted,
    /// The run stopped before it: the budget.
    Spent,
    /// The run stopped before it: an exception in the step before.
    Stopped,
}

pub struct Sight<'a> {
    pub call: &'a Call,
    pub before: &'a Machine,
    pub look: &'a Look,
    pub end: End,
    /// Steps of the run before this one.
    pub steps: u64,
    /// The word of the step before, if it was executed.
    pub last_word: Option<u32>,
    /// Exceptions entered before it.
    pub entered: u64,
}

impl Sight<'_> {
    /// Whether more than one entry speaks of a page of the step, or it raises, or
    /// looks for one: only then is there something to count.
    pub fn remarkable(&self) -> bool {
        let several = |access: &Access| (access.matches | access.strangers).count_ones() > 1;
        let one = |access: &Access| access.matches | access.strangers != 0;
        several(&self.look.fetch)
            || self.look.data.map_or(false, |access| one(&access))
            || self.look.mistaken.map_or(false, |access| several(&access))
            || matches!(self.end, End::Taken(Some(_)))
            || self.look.word == Some(TLBP)
    }

    pub fn taken(&self) -> bool {
        matches!(self.end, End::Taken(_))
    }

    pub fn entered(&self, code: u32) -> bool {
        self.end == End::Taken(Some(code))
    }

    /// The access that the run stopped before.
    pub fn halt(&self) -> Option<Access> {
        self.look.halt().filter(|_| self.end == End::Halted)
    }

    pub fn halted_at(&self, kind: Kind) -> bool {
        self.halt().map_or(false, |access| access.kind == kind)
    }

    /// The low words of the two lowest entries that match, where it halted.
    pub fn lows(&self) -> Option<(u32, u32)> {
        let halt = self.halt()?;
        Some((self.before.tlb[halt.lowest()].low, self.before.tlb[halt.second()].low))
    }

    pub fn opcode(&self) -> u32 {
        self.look.word.map_or(0, |word| word >> 26)
    }
}

/// Shows every step of a run of the reference. An error where it did not stop
/// exactly where the look says.
pub fn watch(call: &Call, answer: Answer, mut show: impl FnMut(&Sight)) -> Result<(), Vec<String>> {
    let mut machine = decode(&call.image);
    let (mut ram, mut paper) = (call.ram.clone(), call.paper.clone());
    let mut memory = call.memory(&mut ram, &mut paper);
    let (mut last_word, mut entered) = (None, 0);
    for steps in 0..=u64::from(answer.steps) {
        let before = machine.clone();
        let look = look(&before, &memory);
        let end = if steps < answer.steps.into() {
            let enters = step(&mut machine, &mut memory, &mut NoRecord);
            End::Taken(if enters { Some(machine.cause >> 2 & 31) } else { None })
        } else {
            [End::Spent, End::Spent, End::Stopped, End::Halted][answer.reason as usize]
        };
        let wrong = match end {
            End::Taken(_) => look.halt().is_some(),
            End::Halted => look.halt().is_none(),
            End::Spent | End::Stopped => false,
        };
        if wrong {
            let what = if answer.reason == TWO_MATCHES { "stopped" } else { "went on" };
            return Err(vec![format!("the reference {what} at step {steps}, the look says no")]);
        }
        show(&Sight { call, before: &before, look: &look, end, steps, last_word, entered });
        last_word = look.word.filter(|_| end == End::Taken(None));
        entered += u64::from(matches!(end, End::Taken(Some(_))));
    }
    Ok(())
}
