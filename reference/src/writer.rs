//! The record of a step, laid down in its slot.

use crate::layout::*;
use crate::machine::{Entry, Machine, Printer};
use crate::record::Recorder;

/// The slot of the step that is being taken, while no disk is at work.
pub struct RecordWriter<'a> {
    pub record: &'a mut Record,
}

impl<'a> RecordWriter<'a> {
    /// Writes all 128 words for a step that overwrites nothing else; what the
    /// step tells later is put over them. So every byte follows from the step,
    /// and none from what stood in the slot.
    ///
    /// Each run of words is filled by itself: a loop over two runs is taken word
    /// by word, where one run is a few stores.
    #[inline(always)]
    pub fn start(record: &'a mut Record, machine: &Machine) -> RecordWriter<'a> {
        set_words_of_core(record, machine);
        record[4 * PRINTED..4 * PRINTERS].fill(0);
        for (number, printer) in machine.printers.iter().enumerate() {
            set_printer(record, PRINTERS + number * PRINTER_WORDS, printer);
        }
        record[4 * KIND..4 * DISKS_PENDING].fill(0);
        set_word(record, DISKS_PENDING, machine.disks_pending);
        record[4 * DISKS..].fill(0);
        RecordWriter { record }
    }

    #[inline]
    fn set_kind(&mut self, kind: u32, which: u32, old: u32) {
        set_word(self.record, KIND, kind);
        set_word(self.record, WHICH, which);
        set_word(self.record, OLD, old);
    }
}

/// In the order of the machine's fields, so that several are moved at a time.
#[inline]
fn set_words_of_core(record: &mut Record, machine: &Machine) {
    set_word(record, HI, machine.hi);
    set_word(record, LO, machine.lo);
    set_word(record, PC, machine.pc);
    set_word(record, NEXT_PC, machine.next_pc);
    set_word(record, INDEX, machine.index);
    set_word(record, RANDOM, machine.random);
    set_word(record, ENTRY_HI, machine.entry_hi);
    set_word(record, ENTRY_LO, machine.entry_lo);
    set_word(record, BAD_VADDR, machine.bad_vaddr);
    set_word(record, STATUS, machine.status.0);
    set_word(record, CAUSE, machine.cause);
    set_word(record, EPC, machine.epc);
    set_word(record, SLOT_FLAG, machine.slot_flag);
    set_word(record, BRANCH_ADDRESS, machine.branch_address);
    set_word(record, TIMER, machine.timer);
    set_word(record, PENDING, machine.pending);
}

#[inline]
fn set_printer(record: &mut Record, at: usize, printer: &Printer) {
    set_word(record, at, printer.status);
    set_word(record, at + 1, printer.command);
    set_word(record, at + 2, printer.data0);
    set_word(record, at + 3, printer.ticks_left);
    set_word(record, at + 4, printer.paper_count);
}

impl Recorder for RecordWriter<'_> {
    /// Register 0 comes with the old value 0, which makes all words 0: nothing.
    #[inline]
    fn register(&mut self, number: u32, old: u32) {
        self.set_kind(if number == 0 { NOTHING } else { REGISTER }, number, old);
    }

    #[inline]
    fn tlb_row(&mut self, number: usize, old: Entry) {
        self.set_kind(TLB_ROW, number as u32, old.high);
        set_word(self.record, OLD_LOW, old.low);
    }

    #[inline]
    fn ram_word(&mut self, place: usize, old: u32) {
        self.set_kind(RAM_WORD, place as u32, old);
    }

    fn disk_word(&mut self, _disk: usize, offset: u32, old: u32, status: u32) {
        self.set_kind(DISK_WORD, offset, old);
        set_word(self.record, OLD_STATUS, status);
    }

    fn paper_byte(&mut self, printer: usize, _place: usize, old: u8) {
        set_word(self.record, PRINTED, word(self.record, PRINTED) | 1 << printer);
        self.record[PAPER_BYTES + printer] = old;
    }
}
