//! The state of the machine between two steps.

use crate::record::Recorder;
use crate::status::Status;

/// One pair of the translation table.
#[derive(Clone, Copy, Debug, Default, PartialEq, Eq)]
pub struct Entry {
    pub high: u32,
    pub low: u32,
}

#[derive(Clone, Copy, Debug, Default, PartialEq, Eq)]
pub struct Printer {
    pub status: u32,
    pub command: u32,
    pub data0: u32,
    pub ticks_left: u32,
    pub paper_count: u32,
}

#[derive(Clone, Copy, Debug, Default, PartialEq, Eq)]
pub struct Disk {
    pub status: u32,
    pub command: u32,
    pub data0: u32,
    /// The geometry.
    pub data1: u32,
    pub ticks_left: u32,
    pub words_left: u32,
    pub cylinder: u32,
}

/// The sixteen words from HI to the printers' pending map stand in the order in
/// which a record has them, so that it takes four at a time.
#[derive(Clone, Debug, Default, PartialEq, Eq)]
pub struct Machine {
    /// Register 0 is held here as well and is always 0.
    pub registers: [u32; 32],
    pub hi: u32,
    pub lo: u32,
    pub pc: u32,
    pub next_pc: u32,
    pub index: u32,
    pub random: u32,
    pub entry_hi: u32,
    pub entry_lo: u32,
    pub bad_vaddr: u32,
    pub status: Status,
    pub cause: u32,
    pub epc: u32,
    /// 1 where the step before executed a branch or jump, so that the step to
    /// come is its slot; else 0.
    pub slot_flag: u32,
    /// The address of that branch or jump; 0 where the flag is 0.
    pub branch_address: u32,
    pub timer: u32,
    pub pending: u32,
    pub tlb: [Entry; 16],
    pub clock: u64,
    pub time_scale: u32,
    pub printer_delay: u32,
    pub installed: u32,
    pub printers: [Printer; 8],
    pub on_hand: u32,
    pub next_slot: u32,
    pub disks_installed: u32,
    pub disks: [Disk; 8],
    pub disks_pending: u32,
    /// Bit n is on while printer n has STATUS 3. Follows from the printers and
    /// is no part of the image; it spares a step from looking at idle printers.
    pub(crate) busy: u32,
    /// The same of the disks: 0 while no disk is at work.
    pub(crate) disks_busy: u32,
}

impl Machine {
    pub(crate) fn register(&self, number: u32) -> u32 {
        self.registers[(number & 31) as usize]
    }

    /// Every write of a register is this one, so none is hidden from `recorder`.
    #[inline]
    pub(crate) fn set_register<R: Recorder>(&mut self, recorder: &mut R, number: u32, value: u32) {
        recorder.register(number & 31, self.register(number));
        self.registers[(number & 31) as usize] = value;
        self.registers[0] = 0;
    }
}
