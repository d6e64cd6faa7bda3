//! What was met, and how much of each must have been.

use crate::damage::SORTS;
use crate::judge::Verdict;
use crate::kinds::KINDS;
use crate::session::Brought;
use crate::world::TRUSTS;

#[derive(Default)]
pub struct Met {
    pub inputs: u64,
    pub by_trust: [u64; TRUSTS.len()],
    pub by_sort: [u64; SORTS.len()],
    pub by_kind: [u64; KINDS.len() + 1],
    pub replied_by_kind: [u64; KINDS.len() + 1],
    pub replied: u64,
    pub refused: u64,
    pub doubtful: u64,
    pub bytes_said: u64,
    pub nudged: u64,
    pub ended: u64,
    pub not_saved: u64,
    pub cut: u64,
    pub odd_events: u64,
    pub finished: u64,
    pub longest: u64,
}

/// A count's name, the count, and its least number for 10,000 inputs.
type Count = (String, u64, u64);

impl Met {
    pub fn count(&mut self, verdict: Verdict, brought: &Brought, kind: Option<usize>) {
        let replied = u64::from(verdict == Verdict::Replied);
        self.replied += replied;
        self.replied_by_kind[kind.unwrap_or(KINDS.len())] += replied;
        self.refused += u64::from(verdict == Verdict::Refused);
        self.doubtful += u64::from(verdict == Verdict::Doubtful);
        self.bytes_said += brought.said.len() as u64;
        self.nudged += u64::from(brought.nudged);
        self.ended += u64::from(brought.ended.is_some());
        self.not_saved += u64::from(brought.ended == Some(3));
    }

    fn counts(&self) -> Vec<Count> {
        let mut counts = vec![("inputs".to_string(), self.inputs, 10_000)];
        let mut add = |name: &str, count, least| counts.push((name.to_string(), count, least));
        for ((_, name), count) in TRUSTS.iter().zip(self.by_trust) {
            add(name, count, 5);
        }
        for ((_, name), count) in SORTS.iter().zip(self.by_sort) {
            add(name, count, 2);
        }
        for (kind, (count, replied)) in
            KINDS.iter().zip(self.by_kind.iter().zip(self.replied_by_kind))
        {
            add(&format!("from a packet of the kind: {}", kind.name), *count, 200);
            add(&format!("replies due to the kind: {}", kind.name), replied, 50);
        }
        add("replies due, and right", self.replied, 2_000);
        add("wrong sums, and - for them", self.refused, 200);
        add("packets that can not be taken apart", self.doubtful, 10);
        add("bytes said", self.bytes_said, 100_000);
        add("runs that gdb had to end", self.nudged, 50);
        add("sessions ended by a packet", self.ended, 20);
        add("of them with no save", self.not_saved, 0);
        add("inputs in parts, with the same outcome", self.cut, 150);
        add("events at odd moments", self.odd_events, 50);
        add("ends of input", self.finished, 20);
        add("bytes of the longest input", self.longest, 0);
        counts
    }

    /// Prints each count. Does each reach its share of the inputs?
    pub fn enough(&self, inputs: u64) -> bool {
        let mut enough = true;
        for (name, count, least) in self.counts() {
            println!("packets: {count:>9} {name}");
            if count < inputs * least / 10_000 {
                eprintln!("packets: that is too few: at least {least} for 10,000 inputs");
                enough = false;
            }
        }
        enough
    }
}
