//! Where a run has to stop: a plain loop of single steps of the reference.

use crate::faults::Fault;
use crate::past::Past;
use crate::points::{Points, Watch};
use std::cell::Cell;

#[derive(Clone, PartialEq, Eq, Debug)]
pub enum Stop {
    /// At a break point.
    Break,
    /// Before a store, seen in the direction of travel; with the watches that it
    /// hits.
    Watch(Vec<Watch>),
    /// After the step, or the steps of the range, that were asked for.
    Stepped,
    HistoryBegins,
    TwoMatches,
    Interrupted,
    /// Nothing stops it so far.
    Open,
}

#[derive(Clone, Copy, PartialEq, Eq, Debug)]
pub enum Way {
    Continue,
    Step,
    /// While PC is from the first up to, and without, the second.
    Range(u32, u32),
    BackContinue,
    BackStep,
}

impl Way {
    pub fn is_back(self) -> bool {
        matches!(self, Way::BackContinue | Way::BackStep)
    }

    pub fn packet(self) -> String {
        match self {
            Way::Continue => "vCont;c".to_string(),
            Way::Step => "vCont;s:1".to_string(),
            Way::Range(from, to) => format!("vCont;r{from:x},{to:x}:1"),
            Way::BackContinue => "bc".to_string(),
            Way::BackStep => "bs".to_string(),
        }
    }
}

/// What limits a run besides its points.
#[derive(Clone, Copy, Debug)]
pub enum Limit {
    /// gdb ended it after so many steps: nothing may have stopped it before.
    Interrupted(u64),
    /// More steps than the stub took are not looked at.
    Most(u64),
}

/// Stores that were passed by although they write to a word with watched bytes.
#[derive(Default)]
pub struct Seen {
    pub equal: Cell<bool>,
    pub neighbour: Cell<bool>,
}

pub struct Rule<'a> {
    pub points: &'a Points,
    pub way: Way,
    pub limit: Limit,
    pub fault: Option<Fault>,
    pub seen: &'a Seen,
}

impl Rule<'_> {
    fn has(&self, fault: Fault) -> bool {
        self.fault == Some(fault)
    }

    /// Whether nothing but gdb can stop it, so that not every step need be looked at.
    fn is_free(&self) -> bool {
        let points = self.points.breaks.len() + self.points.watches.len();
        self.way == Way::Continue && points == 0 && !self.has(Fault::ExceptionStops)
    }

    /// The watches that the newest step hits.
    fn hit(&self, past: &Past) -> Vec<Watch> {
        let store = match past.newest_store() {
            Some(store) => store,
            None => return Vec::new(),
        };
        let before = &past.moments.back().expect("the step of that store").machine;
        let passed_by = self.has(Fault::KernelStoresOverlooked) && before.status.0 & 2 == 0
            || self.has(Fault::StepPassesWatches) && self.way == Way::Step
            || self.has(Fault::BackStepPassesWatches) && self.way == Way::BackStep;
        let looked_at = match () {
            _ if passed_by => 0,
            _ if self.has(Fault::SecondWatchOverlooked) => 1,
            _ => 99,
        };
        let watches = self.points.watches.iter().take(looked_at);
        let (_, old, new) = store;
        if watches.clone().any(|watch| watch.is_hit(Some(Fault::EqualStoreCounts), store)) {
            let seen = if old == new { &self.seen.equal } else { &self.seen.neighbour };
            seen.set(true);
        }
        watches.filter(|watch| watch.is_hit(self.fault, store)).copied().collect()
    }

    fn is_through(&self, steps: u64, pc: u32) -> bool {
        match self.way {
            Way::Step => steps == 1,
            Way::Range(from, to) => {
                let to = to + 4 * u32::from(self.has(Fault::RangeEndIncluded));
                steps > 0
                    && (!(from..to).contains(&pc) || self.has(Fault::RangeStepsOnce) && from <= pc)
            }
            _ => false,
        }
    }

    fn ended(&self, steps: u64) -> Option<Stop> {
        match self.limit {
            Limit::Interrupted(after) if steps >= after => Some(Stop::Interrupted),
            Limit::Most(most) if steps >= most => Some(Stop::Open),
            _ => None,
        }
    }

    /// The steps taken, and why it stops there.
    pub fn forward(&self, past: &mut Past) -> (u64, Stop) {
        let mut steps = match self.limit {
            Limit::Interrupted(after) if self.is_free() => past.skip(after),
            _ => 0,
        };
        loop {
            let pc = past.machine.pc;
            let first_counts = match self.way {
                Way::Continue => !self.has(Fault::FirstPcNotLookedAt),
                _ => self.has(Fault::FirstPcLookedAtByAStep),
            };
            if let (Limit::Interrupted(_), Some(stop)) = (self.limit, self.ended(steps)) {
                return (steps, stop);
            }
            if (steps > 0 || first_counts) && self.points.breaks_at(self.fault, pc) {
                if self.has(Fault::WatchBeforeBreakpoint) && !past.meets_two() {
                    past.step();
                    let hit = self.hit(past);
                    past.undo();
                    if !hit.is_empty() {
                        return (steps, Stop::Watch(hit));
                    }
                }
                if self.has(Fault::OneStepLater) && !past.meets_two() {
                    past.step();
                    past.forget();
                    steps += 1;
                }
                return (steps, Stop::Break);
            }
            if self.is_through(steps, pc) {
                return (steps, Stop::Stepped);
            }
            if past.meets_two() {
                return (steps, Stop::TwoMatches);
            }
            if let Some(stop) = self.ended(steps) {
                return (steps, stop);
            }
            past.step();
            let hit = self.hit(past);
            if !hit.is_empty() {
                if self.has(Fault::WatchAfterTheStore) {
                    past.forget();
                    return (steps + 1, Stop::Watch(hit));
                }
                past.undo();
                return (steps, Stop::Watch(hit));
            }
            let entered = past.moments.back().map_or(false, |moment| moment.entered);
            past.forget();
            steps += 1;
            if entered && self.has(Fault::ExceptionStops) {
                return (steps, Stop::Break);
            }
        }
    }

    /// The steps taken back, and why it stops there.
    pub fn back(&self, past: &mut Past) -> (u64, Stop) {
        let mut steps = 0;
        let first = self.has(Fault::FirstPcLookedAtBackwards) && self.way == Way::BackContinue;
        if first && self.points.breaks_at(self.fault, past.machine.pc) {
            return (0, Stop::Break);
        }
        let left = usize::from(self.has(Fault::HistoryEndsOneStepEarly));
        let oldest = self.has(Fault::OldestForNewest) && self.way == Way::BackContinue;
        let all = past.on_hand();
        let last_hit = if oldest { self.oldest_break(past) } else { 0 };
        loop {
            if let (Limit::Interrupted(_), Some(stop)) = (self.limit, self.ended(steps)) {
                return (steps, stop);
            }
            if past.on_hand() <= left {
                return (steps, Stop::HistoryBegins);
            }
            if let Some(stop) = self.ended(steps) {
                return (steps, stop);
            }
            let blind = self.has(Fault::OldestStepNeverHits) && past.on_hand() == 1;
            let hit = if blind { Vec::new() } else { self.hit(past) };
            let pc_before = past.moments.back().expect("a step on hand").machine.pc;
            let also = self.has(Fault::BreakpointBeforeWatchBackwards)
                && self.points.breaks_at(self.fault, pc_before);
            if !hit.is_empty() && !also {
                if self.has(Fault::WatchUndoneBackwards) {
                    past.undo();
                    steps += 1;
                }
                return (steps, Stop::Watch(hit));
            }
            past.undo();
            steps += 1;
            let is_later_due = oldest && all as u64 - steps > last_hit;
            if self.points.breaks_at(self.fault, past.machine.pc) && !blind && !is_later_due {
                if self.has(Fault::OneStepLaterBackwards) && past.on_hand() > 0 {
                    past.undo();
                    steps += 1;
                }
                return (steps, Stop::Break);
            }
            if self.way == Way::BackStep {
                return (steps, Stop::Stepped);
            }
        }
    }

    /// How many steps are on hand before the oldest one at a break point.
    fn oldest_break(&self, past: &Past) -> u64 {
        let at = |machine: &reference::Machine| self.points.breaks_at(self.fault, machine.pc);
        past.moments.iter().position(|moment| at(&moment.machine)).unwrap_or(0) as u64
    }
}
