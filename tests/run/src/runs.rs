//! Random runs: the archive's answer and every byte beside the reference's.

use crate::archive;
use crate::call::Call;
use crate::dice::Dice;
use crate::difference::explain;
use crate::pool::Pool;
use crate::scene::scene;
use crate::seen::Seen;
use reference::keeps_rules;

const PROGRESS: u64 = 50_000;

/// A run that has not stopped by then seldom stops at all.
const LONG: u64 = 1_000;

/// How many runs may go on to a budget that is longer than that.
const LONG_RUNS: u32 = 2;

/// Cuts the budget of a run that would cost too much. The few that keep a long
/// one spend it whole.
fn cut(call: &mut Call, long_runs: &mut u32) {
    let spends = |call: &Call, budget| call.by_reference(budget).steps() == budget;
    if call.budget <= LONG || !spends(call, LONG) {
        return;
    }
    if *long_runs < LONG_RUNS && spends(call, call.budget) {
        *long_runs += 1;
    } else {
        call.budget = LONG;
    }
}

pub fn compare(seed: u64, runs: u64) -> Seen {
    let pool = Pool::new(&mut Dice::new(seed));
    let mut seen = Seen::new();
    let mut long_runs = 0;
    for run in 0..runs {
        let mut call = scene(&mut Dice::of(seed, run), &pool);
        assert!(keeps_rules(&call.image, call.ram.len(), call.paper.len(), call.journal.len()));
        cut(&mut call, &mut long_runs);
        let expected = call.by_reference(call.budget);
        let got = archive::run(&call, call.budget);
        if got.as_ref() != Ok(&expected) {
            explain(&format!("seed {seed}, run {run}"), &call);
        }
        seen.run(&call, &expected);
        if (run + 1) % PROGRESS == 0 {
            println!("run: {} runs so far", run + 1);
        }
    }
    seen
}
