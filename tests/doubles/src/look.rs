//! What the step to come meets, looked up by the readings of document 01 and
//! of request L5. Not taken from the reference, which is asked whether it agrees.

use reference::{Machine, Memory};

pub const BOOTSTRAP: u32 = 0x1FC0_0000;
pub const RAM: u32 = 0x2000_0000;
pub const PAGE: u32 = 0xFFFF_F000;
pub const ASID: u32 = 0xFC0;
pub const GLOBAL: u32 = 1 << 8;
pub const VALID: u32 = 1 << 9;
pub const DIRTY: u32 = 1 << 10;
pub const TIMER_LINE: u32 = 1 << 10;
pub const PRINTER_LINE: u32 = 1 << 14;

const FIRST_TRANSLATED: u32 = 0x2000_0000;
const FIRST_OF_USER: u32 = 0x8000_0000;

#[derive(Clone, Copy, PartialEq, Eq, Debug)]
pub enum Kind {
    Fetch,
    Load,
    Store,
}

/// One access, and which entries of the table speak of its page.
#[derive(Clone, Copy)]
pub struct Access {
    pub kind: Kind,
    pub address: u32,
    pub aligned: bool,
    pub allowed: bool,
    pub translated: bool,
    /// Bit n is on where entry n matches.
    pub matches: u16,
    /// Bit n is on where entry n has the page, but neither the ASID nor G.
    pub strangers: u16,
}

impl Access {
    fn new(machine: &Machine, kind: Kind, address: u32, bytes: u32) -> Access {
        let (mut matches, mut strangers) = (0, 0);
        for (number, entry) in machine.tlb.iter().enumerate() {
            if (entry.high ^ address) & PAGE == 0 {
                let same_asid = (entry.high ^ machine.entry_hi) & ASID == 0;
                let to = if same_asid || entry.low & GLOBAL != 0 {
                    &mut matches
                } else {
                    &mut strangers
                };
                *to |= 1 << number;
            }
        }
        let open_from = match (user_mode(machine), translation(machine)) {
            (false, _) => 0,
            (true, false) => FIRST_TRANSLATED,
            (true, true) => FIRST_OF_USER,
        };
        Access {
            kind,
            address,
            aligned: address % bytes == 0,
            allowed: address >= open_from,
            translated: translation(machine) && address >= FIRST_TRANSLATED,
            matches,
            strangers,
        }
    }

    /// Two entries match, whether or not the access gets as far as the table.
    pub fn twofold(&self) -> bool {
        self.matches.count_ones() >= 2
    }

    pub fn meets_two(&self) -> bool {
        self.aligned && self.allowed && self.translated && self.twofold()
    }

    pub fn lowest(&self) -> usize {
        self.matches.trailing_zeros() as usize
    }

    pub fn second(&self) -> usize {
        (self.matches & (self.matches - 1)).trailing_zeros() as usize
    }
}

pub struct Look {
    /// Cause with the lines that this step's tick turns on.
    pub ticked: u32,
    pub interrupt: bool,
    pub fetch: Access,
    /// The word at PC, where the fetch gets one.
    pub word: Option<u32>,
    /// Its load or store.
    pub data: Option<Access>,
    /// The access that a word would make if it were a load, but is not one.
    pub mistaken: Option<Access>,
}

pub fn user_mode(machine: &Machine) -> bool {
    machine.status.0 & 2 != 0
}

pub fn translation(machine: &Machine) -> bool {
    machine.status.0 & 1 << 24 != 0
}

pub fn timer_passes(machine: &Machine) -> bool {
    machine.timer == 0
}

pub fn printer_finishes(machine: &Machine) -> bool {
    machine.printers.iter().any(|printer| printer.status == 3 && printer.ticks_left == 1)
}

/// The test of part 3 with these lines.
pub fn interrupts(machine: &Machine, lines: u32) -> bool {
    machine.status.0 & 1 != 0 && machine.status.0 & lines & 0xFF00 != 0
}

fn word_in(bytes: &[u8], place: u32) -> Option<u32> {
    let four = bytes.get(place as usize..place as usize + 4)?;
    Some(u32::from_le_bytes([four[0], four[1], four[2], four[3]]))
}

fn word_at(memory: &Memory, physical: u32) -> Option<u32> {
    if physical >= RAM {
        word_in(memory.ram, physical - RAM)
    } else if physical >= BOOTSTRAP {
        word_in(memory.bootstrap_rom, physical - BOOTSTRAP)
    } else {
        word_in(memory.execution_rom, physical)
    }
}

fn fetched(machine: &Machine, memory: &Memory, fetch: &Access) -> Option<u32> {
    if !fetch.aligned || !fetch.allowed {
        return None;
    }
    if !fetch.translated {
        return word_at(memory, fetch.address);
    }
    let low = machine.tlb.get(fetch.lowest())?.low;
    if low & VALID == 0 {
        return None;
    }
    word_at(memory, low & PAGE | fetch.address & !PAGE)
}

/// The kind and the alignment of a load or a store.
fn load_or_store(opcode: u32) -> Option<(Kind, u32)> {
    match opcode {
        0x20 | 0x22 | 0x24 | 0x26 => Some((Kind::Load, 1)),
        0x21 | 0x25 => Some((Kind::Load, 2)),
        0x23 => Some((Kind::Load, 4)),
        0x28 | 0x2A | 0x2E => Some((Kind::Store, 1)),
        0x29 => Some((Kind::Store, 2)),
        0x2B => Some((Kind::Store, 4)),
        _ => None,
    }
}

pub fn look(machine: &Machine, memory: &Memory) -> Look {
    let mut ticked = machine.cause;
    if timer_passes(machine) {
        ticked |= TIMER_LINE;
    }
    if printer_finishes(machine) {
        ticked |= PRINTER_LINE;
    }
    let fetch = Access::new(machine, Kind::Fetch, machine.pc, 4);
    let word = fetched(machine, memory, &fetch);
    let address = word.map(|word| {
        let base = machine.registers[(word >> 21 & 31) as usize];
        (word, base.wrapping_add(word as u16 as i16 as u32))
    });
    let data = address.and_then(|(word, address)| {
        let (kind, bytes) = load_or_store(word >> 26)?;
        Some(Access::new(machine, kind, address, bytes))
    });
    let mistaken = match (address, data) {
        (Some((_, address)), None) => Some(Access::new(machine, Kind::Load, address, 1)),
        _ => None,
    };
    Look { ticked, interrupt: interrupts(machine, ticked), fetch, word, data, mistaken }
}

impl Look {
    /// The access that stops a run before this step.
    pub fn halt(&self) -> Option<Access> {
        if self.interrupt {
            return None;
        }
        let fetch = Some(self.fetch).filter(Access::meets_two);
        fetch.or_else(|| self.data.filter(Access::meets_two))
    }
}
