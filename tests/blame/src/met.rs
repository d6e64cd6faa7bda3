//! What was met, and how much of each must have been.

#[derive(Default)]
pub struct Met {
    pub by_slots: [u64; 6],
    pub by_home: [u64; 3],
    pub by_frames: [u64; 3],
    pub by_frame: [u64; 3],
    pub by_store: [u64; 5],
    pub arguments: u64,
    pub made: u64,
    pub runs: u64,
    pub take_backs: u64,
    pub back_refused: u64,
    pub reopened: u64,
    pub loads: u64,
    pub blames: u64,
    pub wrapped: u64,
    pub after_take_back: u64,
    pub changed: u64,
    pub newest: u64,
    pub oldest: u64,
    pub round_the_end: u64,
    pub rewritten: u64,
    pub another_now: u64,
    pub exceptions_since: u64,
    pub paper_since: u64,
    pub printer_busy: u64,
    pub clock_round: u64,
    pub unchanged: u64,
    pub none_on_hand: u64,
    pub older_change: u64,
    pub equal_stores: u64,
    pub frame_later: u64,
    pub frame_only: u64,
    pub odd: u64,
    pub outside: u64,
    pub stood_before: u64,
    pub stepped_again: u64,
    pub all_again: u64,
    pub before_none: u64,
    pub before_refused: u64,
}

/// A count's name, the count, and its least share of the histories in percent.
type Count = (&'static str, u64, u64);

fn named(names: &[&'static str], counts: &[u64], percent: u64) -> Vec<Count> {
    names.iter().zip(counts).map(|(name, count)| (*name, *count, percent)).collect()
}

impl Met {
    fn worlds(&self) -> Vec<Count> {
        let slots =
            ["0 slots", "1 slot", "2 slots", "3 slots", "17 slots", "other numbers of slots"];
        let homes = ["programs in ROM", "programs in RAM", "programs in pages of RAM"];
        let frames = ["with 1 frame", "with 2 frames", "with 3 frames"];
        let mut counts = named(&slots, &self.by_slots, 5);
        counts.extend(named(&homes, &self.by_home, 20));
        counts.extend(named(&frames, &self.by_frames, 8));
        counts.extend([
            ("stations made by the panel", self.made, 30),
            ("sessions of one command each", self.arguments, 15),
            ("sessions opened again", self.reopened, 5),
            ("files loaded in between", self.loads, 5),
            ("runs", self.runs, 100),
            ("take-backs", self.take_backs, 50),
            ("take-backs refused", self.back_refused, 5),
        ]);
        counts
    }

    fn blamed(&self) -> Vec<Count> {
        let stores = ["by SB", "by SH", "by SWL", "by SW", "by SWR"];
        let frame = ["in the first frame", "in the second", "in the third"];
        let mut counts = vec![
            ("answers of blame", self.blames, 500),
            ("of a wrapped journal", self.wrapped, 300),
            ("after a take-back", self.after_take_back, 100),
            ("words changed by a step on hand", self.changed, 80),
        ];
        counts.extend(named(&stores, &self.by_store, 5));
        counts.extend(named(&frame, &self.by_frame, 10));
        counts.extend([
            ("by the newest", self.newest, 15),
            ("by the oldest", self.oldest, 8),
            ("by one behind the journal's end", self.round_the_end, 30),
            ("whose instruction was stored over since", self.rewritten, 1),
            ("whose PC has another instruction now", self.another_now, 5),
            ("with exceptions since", self.exceptions_since, 15),
            ("with paper printed since", self.paper_since, 2),
            ("while a printer was busy", self.printer_busy, 5),
            ("with a carry of the clock's halves since", self.clock_round, 1),
            ("words that no step on hand changed", self.unchanged, 200),
            ("with none on hand", self.none_on_hand, 50),
            ("that an older step changed", self.older_change, 80),
            ("answers that passed over equal stores", self.equal_stores, 15),
            ("words whose frame a later step changed", self.frame_later, 20),
            ("words whose frame alone a step on hand changed", self.frame_only, 50),
            ("odd addresses refused", self.odd, 20),
            ("addresses beside RAM refused", self.outside, 20),
        ]);
        counts
    }

    fn before(&self) -> Vec<Count> {
        vec![
            ("times stood just before the step", self.stood_before, 12),
            ("and took it again", self.stepped_again, 6),
            ("and those behind it, to the same bytes", self.all_again, 3),
            ("times before had no step to go to", self.before_none, 20),
            ("times before refused an address", self.before_refused, 5),
        ]
    }

    /// Prints each count. Does each reach its share of the histories?
    pub fn enough(&self, histories: u64) -> bool {
        let mut enough = true;
        let counts = [self.worlds(), self.blamed(), self.before()].concat();
        for (name, count, percent) in counts {
            println!("blame: {count:>9} {name}");
            if count < histories * percent / 100 {
                eprintln!("blame: that is too few: at least {percent} for 100 histories");
                enough = false;
            }
        }
        enough
    }
}
