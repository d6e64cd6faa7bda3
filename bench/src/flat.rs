//! Whether a step costs the same in long runs as in short ones, and with much
//! RAM as with little.

use crate::loops::{FRAMES, LOOPS, WALKING};
use crate::rounds::Case;
use crate::sitting::sit;
use crate::tables::{self, number};

const LENGTHS: [u64; 6] = [1_000, 10_000, 100_000, 1_000_000, 10_000_000, 100_000_000];
const RAM_FRAMES: [u32; 7] = [1, 4, 16, 64, 256, 1_024, 4_096];
const MEMORY: usize = 1;

/// Of the memory loop, translated.
fn of_length(steps: u64, slots: usize) -> Case {
    let start = Box::new(move || LOOPS[MEMORY].station(true, slots, FRAMES));
    Case { name: format!("{} steps", number(steps)), slots, steps, start }
}

fn of_frames(frames: u32, slots: usize) -> Case {
    let start = Box::new(move || WALKING.station(false, slots, frames));
    let name = format!("RAM frames: {}", number(frames.into()));
    Case { name, slots, steps: 1_000_000, start }
}

fn show(what: &str, cases: &[Case], rounds: usize) {
    let all = sit(what, cases, rounds);
    for (case, figures) in cases.iter().zip(&all) {
        tables::row(case, figures, "");
    }
}

pub fn tables() {
    let what = "Flat in the steps: the memory loop, translated, in calls of at most 1,000,000";
    tables::head(what, "");
    for slots in [16, 32_768] {
        let (short, long) = LENGTHS.split_at(4);
        let cases = |steps: &[u64]| -> Vec<Case> {
            steps.iter().map(|steps| of_length(*steps, slots)).collect()
        };
        show("run lengths", &cases(short), 4);
        show("run lengths", &cases(long), 1);
    }
    let what = "Flat in the frames: a loop of seven that loads and stores in another frame each \
                time;\nwhat rises on both sides is the host's own memory";
    tables::head(what, "");
    for slots in [0, 16] {
        let cases: Vec<Case> = RAM_FRAMES.iter().map(|frames| of_frames(*frames, slots)).collect();
        show("frames", &cases, 4);
    }
}
