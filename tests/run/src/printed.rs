//! What the printers have done, counted.

use crate::sight::Sight;

#[derive(Default)]
pub struct Printed {
    pub finished: [u64; 8],
    pub bytes: [u64; 8],
    pub full: u64,
    pub resets: u64,
    pub several_at_once: u64,
    pub interrupt_at_once: u64,
    /// In the step of an exception that is no interrupt.
    pub beside_an_exception: u64,
}

impl Printed {
    pub fn step(&mut self, sight: &Sight) {
        let mut count = 0;
        for number in sight.finishing() {
            let printer = &sight.before.printers[number];
            let more = sight.after.printers[number].paper_count - printer.paper_count;
            count += 1;
            self.finished[number] += 1;
            self.bytes[number] += u64::from(more);
            self.resets += u64::from(printer.command == 0);
            self.full += u64::from(printer.command == 2 && more == 0);
        }
        if count == 0 {
            return;
        }
        self.several_at_once += u64::from(count > 1);
        self.interrupt_at_once += u64::from(sight.is(0) && sight.before.pending == 0);
        self.beside_an_exception += u64::from(sight.code.is_some() && !sight.is(0));
    }
}
