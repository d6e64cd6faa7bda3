//! Run of the archive, made safe: it is given buffers between guard bytes, and
//! a call that wrote where it must not is an error.

use crate::call::{Call, Outcome};
use crate::lending;
use crate::lent::Lent;

impl Lent {
    /// The packed answer; all but the ROMs are written in place.
    pub fn run(&mut self, budget: u64, stop: u64) -> Result<u64, String> {
        let answer = lending::run(self, budget, stop);
        self.wrong().map_or(Ok(answer), Err)
    }

    pub fn outcome(&self, answer: u64) -> Outcome {
        Outcome {
            answer,
            image: self.image.content().to_vec(),
            ram: self.ram.content().to_vec(),
            paper: self.paper.content().to_vec(),
            journal: self.journal.content().to_vec(),
            index: self.index.content().to_vec(),
        }
    }
}

/// One call on fresh buffers.
pub fn run(call: &Call, budget: u64) -> Result<Outcome, String> {
    let mut lent = call.lent();
    let answer = lent.run(budget, call.stop)?;
    Ok(lent.outcome(answer))
}
