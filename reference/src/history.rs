//! Take-back by own means: checkpoints and replay, without records.
//!
//! Row 8 judges records; a history has none and never answers 8. It covers steps that were run through it on buffers
//! that nobody else has changed since, and answers nothing for all others.

use std::rc::Rc;

use crate::answer::{Answer, BUDGET_SPENT, NO_REASON};
use crate::calls::run;
use crate::checkpoint::{Checkpoint, Roms};
use crate::give_back::Lengths;
use crate::image::{decode, encode};
use crate::sizes::{budget_fits, disks_fit, record_slots};
use crate::take_back::take_back_refusal;

/// The steps of one machine, as far back as its journal reaches.
pub struct History {
    every: u64,
    now: u64,
    checkpoints: Vec<Checkpoint>,
}

impl History {
    /// A checkpoint is made at the start of each run and after each `every`
    /// steps within one.
    pub fn new(every: u32) -> History {
        assert!(every > 0);
        History { every: every.into(), now: 0, checkpoints: Vec::new() }
    }

    /// `reference::run`, remembered.
    #[allow(clippy::too_many_arguments)]
    pub fn run(
        &mut self,
        image: &mut [u8],
        execution_rom: &[u8],
        bootstrap_rom: &[u8],
        ram: &mut [u8],
        paper: &mut [u8],
        journal: &mut [u8],
        mut disks: [&mut [u8]; 8],
        budget: u64,
        stop: u64,
    ) -> Answer {
        let roms =
            Rc::new(Roms { execution: execution_rom.to_vec(), bootstrap: bootstrap_rom.to_vec() });
        // A refused run must be refused whole, before its first part is run.
        let mut part = if budget_fits(budget) { budget.min(self.every) } else { budget };
        let mut total = 0;
        loop {
            let before = Checkpoint::of(self.now, &roms, image, ram, paper, &disks, journal.len());
            let Roms { execution, bootstrap } = &*roms;
            let lent = disks.each_mut().map(|disk| &mut **disk);
            let answer = run(image, execution, bootstrap, ram, paper, journal, lent, part, stop);
            if answer.number != 0 {
                return answer;
            }
            self.checkpoints.push(before);
            self.now += u64::from(answer.steps);
            total += u64::from(answer.steps);
            if answer.reason != BUDGET_SPENT || total == budget {
                self.forget_unreachable(decode(image).on_hand);
                return Answer::done(answer.reason, total as u32);
            }
            part = (budget - total).min(self.every);
        }
    }

    /// Drops the checkpoints that no take-back can need any more.
    fn forget_unreachable(&mut self, on_hand: u32) {
        let oldest = self.now.saturating_sub(on_hand.into());
        let needed = self.last_at_or_before(oldest).unwrap_or(0);
        self.checkpoints.drain(..needed);
    }

    fn last_at_or_before(&self, step: u64) -> Option<usize> {
        self.checkpoints.iter().rposition(|checkpoint| checkpoint.at <= step)
    }

    /// Take-back. None where the history does not reach back far enough or
    /// other sizes are lent than at the run: only records could answer there.
    pub fn take_back(
        &mut self,
        image: &mut [u8],
        ram: &mut [u8],
        paper: &mut [u8],
        journal: &mut [u8],
        disks: [&mut [u8]; 8],
        count: u64,
    ) -> Option<Answer> {
        let lengths = Lengths::of(ram, paper, journal, disks.each_ref().map(|disk| disk.len()));
        let refusal = take_back_refusal(image, &lengths, count);
        if refusal != 0 {
            return Some(Answer::refused(refusal));
        }
        if !disks_fit(&decode(image), lengths.disks) {
            return Some(Answer::refused(13));
        }
        if count == 0 {
            return Some(Answer::done(NO_REASON, 0));
        }
        let target = self.now.checked_sub(count)?;
        let nearest = self.last_at_or_before(target)?;
        let checkpoint = &self.checkpoints[nearest];
        if !checkpoint.is_of(&lengths) {
            return None;
        }
        let steps = target - checkpoint.at;
        let (replayed, mut restored) = checkpoint.replay(ram, paper, journal, disks, steps);
        assert_eq!(replayed, Answer::done(BUDGET_SPENT, steps as u32));
        place_in_journal(&mut restored, image, journal.len(), count as u32);
        image.copy_from_slice(&restored);
        self.checkpoints.truncate(nearest + 1);
        self.now = target;
        Some(Answer::done(NO_REASON, count as u32))
    }
}

/// On hand and next slot are counted back from where they stand now, never
/// restored: with a full journal the two differ.
fn place_in_journal(restored: &mut [u8], now: &[u8], journal_len: usize, count: u32) {
    let slots = record_slots(journal_len) as u32;
    let now = decode(now);
    let mut machine = decode(restored);
    machine.on_hand = now.on_hand - count;
    machine.next_slot = (now.next_slot + slots - count) % slots;
    encode(&machine, restored);
}
