//! What a step tells a writer of journal records.

use crate::machine::{Entry, Machine};

/// Given everything that a step overwrites outside the words that nearly every
/// step changes. The calls are monomorphised, so that a recorder which leaves
/// a method empty pays nothing for it.
///
/// A step makes at most one call of `register`, `tlb_row`, `ram_word` and
/// `disk_word` together, and none where it enters an exception. What the words of
/// disks at work overwrite can be seen before the step, and is told by no call.
pub trait Recorder {
    fn before_step(&mut self, _machine: &Machine) {}

    /// A register is about to be written. Told for register 0 too, which has
    /// the old value 0 and keeps it.
    fn register(&mut self, _number: u32, _old: u32) {}

    /// An entry of the translation table is about to be written.
    fn tlb_row(&mut self, _number: usize, _old: Entry) {}

    /// An aligned RAM word is about to be stored to; `place` counts from
    /// RAM's start. A disk may have read into it earlier in this step.
    fn ram_word(&mut self, _place: usize, _old: u32) {}

    /// A store has landed on COMMAND or DATA0 of an installed disk, busy or not, at
    /// this offset in the device area. The disk's STATUS is that behind the step's
    /// tick.
    fn disk_word(&mut self, _disk: usize, _offset: u32, _old: u32, _status: u32) {}

    /// A paper byte is about to be printed over. At most one for each of the
    /// eight printers in a step.
    fn paper_byte(&mut self, _printer: usize, _place: usize, _old: u8) {}

    /// `record` is the step's slot of the journal, None where there are no
    /// slots. The machine has moved on, on hand and next slot included.
    fn after_step(&mut self, _machine: &Machine, _record: Option<&mut [u8]>) {}
}

/// Leaves the journal's bytes alone.
pub struct NoRecord;

impl Recorder for NoRecord {}
