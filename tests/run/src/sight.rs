//! One step of the reference, looked at from outside.

use crate::book;
use crate::look::{device_offset, route, word_at_pc, Route, BOOTSTRAP, RAM};
use reference::{step, Machine, Memory, NoRecord};

pub struct Sight<'a> {
    pub before: &'a Machine,
    pub after: &'a Machine,
    /// ExcCode, where an exception was entered.
    pub code: Option<u32>,
    /// The word fetched; None at an interrupt or where the fetch failed.
    pub word: Option<u32>,
    pub fetch: Route,
    /// The way of a load's or store's address.
    pub data: Option<Route>,
    pub ram_bytes: u32,
}

/// Takes one step and shows it.
pub fn see(machine: &mut Machine, memory: &mut Memory, mut show: impl FnMut(&Sight)) {
    let before = machine.clone();
    let fetch = route(&before, before.pc);
    let found = word_at_pc(&before, memory, &fetch);
    let entered = step(machine, memory, &mut NoRecord);
    let code = if entered { Some(machine.cause >> 2 & 31) } else { None };
    let word = found.filter(|_| code != Some(0));
    let data = word.filter(|word| book::loads(*word) || book::stores(*word)).map(|word| {
        let base = before.registers[book::rs(word)];
        route(&before, base.wrapping_add(book::offset(word)))
    });
    let ram_bytes = memory.ram.len() as u32;
    show(&Sight { before: &before, after: machine, code, word, fetch, data, ram_bytes });
}

impl Sight<'_> {
    /// The word, if it was executed without an exception.
    pub fn done(&self) -> Option<u32> {
        self.word.filter(|_| self.code.is_none())
    }

    pub fn is(&self, code: u32) -> bool {
        self.code == Some(code)
    }

    pub fn loads(&self) -> bool {
        self.word.map_or(false, book::loads)
    }

    pub fn stores(&self) -> bool {
        self.word.map_or(false, book::stores)
    }

    pub fn physical(&self) -> Option<u32> {
        self.data.and_then(|route| route.physical)
    }

    pub fn address(&self) -> Option<u32> {
        self.data.map(|route| route.address)
    }

    /// The offset of a data access in the device area.
    pub fn device(&self) -> Option<u32> {
        self.physical().and_then(device_offset)
    }

    /// The offset of a word that was stored in the device area.
    pub fn device_store(&self) -> Option<u32> {
        self.done().filter(|word| book::stores(*word)).and_then(|_| self.device())
    }

    pub fn device_load(&self) -> Option<u32> {
        self.done().filter(|word| book::loads(*word)).and_then(|_| self.device())
    }

    /// Printer and field (0, 4, 8, 12) of a store to line 6.
    pub fn printer_store(&self) -> Option<(usize, u32)> {
        let within = self.device_store()?.checked_sub(0x1D0).filter(|within| *within < 0x80)?;
        Some((within as usize / 16, within % 16))
    }

    /// The value of the register that a store writes.
    pub fn stored(&self) -> u32 {
        self.word.map_or(0, |word| self.before.registers[book::rt(word)])
    }

    pub fn in_execution_rom(&self) -> bool {
        self.physical().map_or(false, |place| place < 0x1_0000)
    }

    pub fn in_bootstrap_rom(&self) -> bool {
        self.physical().map_or(false, |place| (BOOTSTRAP..RAM).contains(&place))
    }

    /// PC is where a branch or jump led the one before, not behind it.
    pub fn in_slot_of_taken(&self) -> bool {
        self.before.next_pc != self.before.pc.wrapping_add(4)
    }

    /// The step before executed a branch or jump, taken or not.
    pub fn in_slot(&self) -> bool {
        self.before.slot_flag == 1
    }

    pub fn timer_passes(&self) -> bool {
        self.before.timer == 0
    }

    /// The printers that finish in this step.
    pub fn finishing(&self) -> impl Iterator<Item = usize> + '_ {
        (0..8).filter(move |number| self.before.printers[*number].ticks_left == 1)
    }
}
