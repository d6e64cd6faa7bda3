//! What was met, and how much of each must have been.

#[derive(Default)]
pub struct Met {
    pub by_slots: [u64; 6],
    pub runs: u64,
    pub take_backs: u64,
    pub asked: u64,
    pub questions: u64,
    pub wrapped: u64,
    pub after_take_back: u64,
    pub none_on_hand: u64,
    pub all_on_hand: u64,
    pub changed: u64,
    pub unchanged: u64,
    pub changed_by_newest: u64,
    pub changed_by_oldest: u64,
    pub round_the_end: u64,
    pub equal_stores: u64,
    pub at_pc: u64,
    pub not_at_pc: u64,
    pub newest_not_oldest: u64,
    pub unfit: u64,
}

/// A count's name, the count, and its least share of the histories in percent.
type Count = (&'static str, u64, u64);

impl Met {
    fn slots(&self) -> Vec<Count> {
        let names =
            ["0 slots", "1 slot", "2 slots", "3 slots", "17 slots", "other numbers of slots"];
        names.into_iter().zip(self.by_slots).map(|(name, count)| (name, count, 10)).collect()
    }

    fn rest(&self) -> [Count; 18] {
        [
            ("runs", self.runs, 200),
            ("take-backs", self.take_backs, 100),
            ("moments asked about", self.asked, 300),
            ("questions", self.questions, 5_000),
            ("of a wrapped journal", self.wrapped, 100),
            ("after a take-back", self.after_take_back, 100),
            ("with none on hand", self.none_on_hand, 20),
            ("with all slots on hand", self.all_on_hand, 100),
            ("words changed by a step on hand", self.changed, 200),
            ("by the newest", self.changed_by_newest, 40),
            ("by the oldest", self.changed_by_oldest, 20),
            ("by one behind the journal's end", self.round_the_end, 50),
            ("words that no step on hand changed", self.unchanged, 300),
            ("answers that passed over equal stores", self.equal_stores, 200),
            ("PCs of steps on hand", self.at_pc, 400),
            ("whose newest and oldest step differ", self.newest_not_oldest, 80),
            ("PCs of none", self.not_at_pc, 400),
            ("numbers that do not fit", self.unfit, 30),
        ]
    }

    /// Prints each count. Does each reach its share of the histories?
    pub fn enough(&self, histories: u64) -> bool {
        let mut enough = true;
        for (name, count, percent) in self.slots().into_iter().chain(self.rest()) {
            println!("seek: {count:>9} {name}");
            if count < histories * percent / 100 {
                eprintln!("seek: that is too few: at least {percent} for 100 histories");
                enough = false;
            }
        }
        enough
    }
}
