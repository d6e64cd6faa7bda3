//! What was met, and how much of each must have been.

use crate::due::{Seen, Stop, Way};
use crate::world::World;
use reference::Machine;

#[derive(Default)]
pub struct Met {
    pub worlds: u64,
    pub by_slots: [u64; 6],
    pub by_home: [u64; 3],
    pub questions: u64,
    pub by_way: [u64; 5],
    pub breaks: [u64; 2],
    pub watches: [u64; 2],
    pub by_bytes: [u64; 4],
    pub at_once: [u64; 2],
    pub far: [u64; 2],
    pub stepped: [u64; 2],
    pub history_begins: u64,
    pub none_on_hand: u64,
    pub two_matches: u64,
    pub interrupted: [u64; 2],
    pub interrupted_on_a_break: u64,
    pub kept_interrupts: u64,
    pub wrapped: u64,
    pub wrapped_behind: u64,
    pub equal_passed: u64,
    pub neighbour_passed: u64,
    pub translated: u64,
    pub user_mode: u64,
    pub kernel_store: u64,
    pub in_a_slot: u64,
    pub both: u64,
    pub several_watches: u64,
    pub taken_out: u64,
    pub watches_refused: u64,
    pub most_breaks: u64,
}

/// A count's name, the count, and its least number for 1,000 questions.
type Count = (&'static str, u64, u64);

impl Met {
    #[allow(clippy::too_many_arguments)]
    pub fn count(
        &mut self,
        world: &World,
        way: Way,
        due: &Stop,
        steps: u64,
        before: usize,
        began: &Machine,
        seen: &Seen,
    ) {
        let back = usize::from(way.is_back());
        let past = &world.past;
        let one = |yes: bool| u64::from(yes);
        self.questions += 1;
        self.by_way[match way {
            Way::Continue => 0,
            Way::Step => 1,
            Way::Range(..) => 2,
            Way::BackContinue => 3,
            Way::BackStep => 4,
        }] += 1;
        let hit = matches!(due, Stop::Break | Stop::Watch(_));
        self.at_once[back] += one(hit && steps == 0);
        self.far[back] += one(hit && steps > 1_024);
        match due {
            Stop::Break => self.breaks[back] += 1,
            Stop::Watch(watches) => {
                self.watches[back] += 1;
                for watch in watches {
                    self.by_bytes[watch.bytes.trailing_zeros() as usize] += 1;
                    // The store is made where the address means nothing.
                    let kernel = watch.address >= 0x8000_0000 && !world.is_determined(watch);
                    self.kernel_store += one(kernel && back == 0);
                }
                self.several_watches += one(watches.len() > 1);
                self.both += one(world.points.breaks_at(None, past.machine.pc));
            }
            Stop::Stepped => self.stepped[back] += 1,
            Stop::HistoryBegins => {
                self.history_begins += 1;
                self.none_on_hand += one(steps == 0);
            }
            Stop::TwoMatches => self.two_matches += 1,
            Stop::Interrupted => self.interrupted[back] += 1,
            Stop::Open => {}
        }
        let full = past.slots as u64;
        self.wrapped += one(back == 0 && hit && full > 0 && before as u64 + steps > full);
        self.wrapped_behind += one(back == 1 && hit && past.steps > full && steps > 0);
        self.equal_passed += one(seen.equal.get());
        self.neighbour_passed += one(seen.neighbour.get());
        self.translated += one(hit && past.machine.status.0 & 1 << 24 != 0);
        self.user_mode += one(hit && past.machine.status.0 & 2 != 0);
        self.in_a_slot += one(hit && (past.machine.slot_flag | began.slot_flag) != 0);
    }

    fn counts(&self) -> Vec<Count> {
        vec![
            ("machines", self.worlds, 10),
            ("with 0 slots", self.by_slots[0], 1),
            ("with 1 slot", self.by_slots[1], 1),
            ("with 3 slots", self.by_slots[2], 1),
            ("with 17 slots", self.by_slots[3], 2),
            ("with 1,100 slots", self.by_slots[4], 3),
            ("with 5,000 slots", self.by_slots[5], 2),
            ("with programs in ROM", self.by_home[0], 3),
            ("with programs in RAM", self.by_home[1], 3),
            ("with programs in pages of RAM", self.by_home[2], 3),
            ("questions", self.questions, 1_000),
            ("by vCont;c", self.by_way[0], 100),
            ("by vCont;s", self.by_way[1], 100),
            ("by vCont;r", self.by_way[2], 30),
            ("by bc", self.by_way[3], 100),
            ("by bs", self.by_way[4], 100),
            ("break points met forwards", self.breaks[0], 50),
            ("break points met backwards", self.breaks[1], 50),
            ("stores met forwards", self.watches[0], 40),
            ("stores met backwards", self.watches[1], 30),
            ("of 1 watched byte", self.by_bytes[0], 10),
            ("of 2 watched bytes", self.by_bytes[1], 10),
            ("of 4 watched bytes", self.by_bytes[2], 10),
            ("of 8 watched bytes", self.by_bytes[3], 5),
            ("of two watches at once", self.several_watches, 1),
            ("with a break point at the same PC", self.both, 1),
            ("by the kernel, watched by a user's address", self.kernel_store, 0),
            ("met with no step, forwards", self.at_once[0], 10),
            ("met with no step, backwards", self.at_once[1], 10),
            ("met after more than 1,024 steps, forwards", self.far[0], 2),
            ("met after more than 1,024 steps, backwards", self.far[1], 1),
            ("met in or behind a branch's slot", self.in_a_slot, 10),
            ("met with translation on", self.translated, 20),
            ("met in user mode", self.user_mode, 20),
            ("met with a journal that went round on the way", self.wrapped, 20),
            ("met backwards in a journal that had gone round", self.wrapped_behind, 20),
            ("answers that passed over equal stores", self.equal_passed, 20),
            ("answers that passed over other bytes of the word", self.neighbour_passed, 20),
            ("steps and ranges to their end", self.stepped[0], 50),
            ("steps back", self.stepped[1], 50),
            ("histories' beginnings", self.history_begins, 50),
            ("with no step on hand at all", self.none_on_hand, 10),
            ("halts at two entries that match", self.two_matches, 2),
            ("none found, runs ended by gdb", self.interrupted[0], 10),
            ("none found yet, ended by gdb backwards", self.interrupted[1], 0),
            ("of them on a break point", self.interrupted_on_a_break, 0),
            ("interrupts kept for the next resume", self.kept_interrupts, 5),
            ("points taken out", self.taken_out, 100),
            ("watches refused without a journal", self.watches_refused, 2),
            ("break points at a time", self.most_breaks, 0),
        ]
    }

    /// Prints each count. Does each reach its share of the questions?
    pub fn enough(&self, questions: u64) -> bool {
        let mut enough = true;
        for (name, count, least) in self.counts() {
            println!("hits: {count:>9} {name}");
            if count < questions * least / 1_000 {
                eprintln!("hits: that is too few: at least {least} for 1,000 questions");
                enough = false;
            }
        }
        enough
    }
}
