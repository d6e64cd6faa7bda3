//! What done take-backs have stepped back over, seen in the records: a record
//! is the state before its step, the next newer one the state behind it.

use crate::record::*;
use reference::Machine;

#[derive(Default)]
pub struct Stepped {
    pub records: u64,
    pub by_kind: [u64; 5],
    pub by_code: [u64; 13],
    /// Steps in slots, and those that entered an exception.
    pub slots: u64,
    pub entered_in_slots: u64,
    /// The clock's low word went to 0, and the whole clock did.
    pub carries: u64,
    pub clock_rounds: u64,
    pub passages: u64,
    pub finished: [u64; 8],
    pub bytes: [u64; 8],
    pub eight_finished: u64,
    pub eight_bytes: u64,
    pub finished_at_exception: u64,
    /// Take-backs that went from the journal's first slot to its last.
    pub rounds: u64,
    pub whole: u64,
}

const VECTORS: [u32; 4] = [0, 0x80, 0x1FC0_0100, 0x1FC0_0180];

/// ExcCode, where the step between the two entered an exception.
fn entered(before: &[u8], after: &[u8]) -> Option<usize> {
    let status = word(before, STATUS);
    let pushed = status & !0x0700_003F | status << 2 & 0x3F | status << 1 & 0x0700_0000;
    let back = if word(before, SLOT_FLAG) == 1 { BRANCH_ADDRESS } else { PC };
    let entered = word(after, EPC) == word(before, back)
        && word(after, STATUS) == pushed
        && VECTORS.contains(&word(after, PC))
        && word(after, NEXT_PC) == word(after, PC) + 4
        && word(before, KIND) == NOTHING;
    let code = word(after, CAUSE) >> 2 & 31;
    if entered {
        Some(code as usize)
    } else {
        None
    }
}

impl Stepped {
    /// `machine` is as it was before so many steps were taken back.
    pub fn count(&mut self, machine: &Machine, journal: &[u8], steps: u32) {
        if steps == 0 {
            return;
        }
        let slots = journal.len() / RECORD_BYTES;
        let now = plain(machine);
        let mut after: &[u8] = &now;
        for slot in newest(machine.next_slot, slots, steps as usize) {
            let before = at(journal, slot);
            self.step(before, after);
            after = before;
        }
        self.rounds += u64::from(slots > 1 && steps > machine.next_slot);
        self.whole += u64::from(steps == machine.on_hand);
        self.carries += u64::from((machine.clock as u32) < steps);
        self.clock_rounds += u64::from(machine.clock < steps.into());
    }

    fn step(&mut self, before: &[u8], after: &[u8]) {
        self.records += 1;
        self.by_kind[word(before, KIND) as usize] += 1;
        self.passages += u64::from(word(before, TIMER) == 0);
        let code = entered(before, after);
        if let Some(code) = code {
            self.by_code[code] += 1;
        }
        let in_slot = word(before, SLOT_FLAG) == 1;
        self.slots += u64::from(in_slot);
        self.entered_in_slots += u64::from(in_slot && code.is_some());
        let mut finished = 0;
        for number in 0..8 {
            let last_tick = word(before, printer(number, TICKS)) == 1;
            finished += u64::from(last_tick);
            self.finished[number] += u64::from(last_tick);
            self.bytes[number] += u64::from(word(before, PRINTED) >> number & 1);
        }
        self.eight_finished += u64::from(finished == 8);
        self.eight_bytes += u64::from(word(before, PRINTED) == 0xFF);
        self.finished_at_exception += u64::from(finished > 0 && code.is_some());
    }
}
