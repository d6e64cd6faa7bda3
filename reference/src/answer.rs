//! The answer of a public call.

pub const NO_REASON: u8 = 0;
pub const BUDGET_SPENT: u8 = 1;
pub const EXCEPTION: u8 = 2;
pub const TWO_MATCHES: u8 = 3;

/// Number for yes or no, stop reason, and steps, as document 01 gives them.
#[derive(Clone, Copy, Debug, PartialEq, Eq)]
pub struct Answer {
    pub number: u8,
    pub reason: u8,
    pub steps: u32,
}

impl Answer {
    pub const fn done(reason: u8, steps: u32) -> Answer {
        Answer { number: 0, reason, steps }
    }

    pub const fn refused(number: u8) -> Answer {
        Answer { number, reason: NO_REASON, steps: 0 }
    }

    /// Bits 0-7 the number, 8-15 the reason, 32-63 the steps, all else 0.
    pub const fn packed(self) -> u64 {
        self.number as u64 | (self.reason as u64) << 8 | (self.steps as u64) << 32
    }
}
