//! Where an address leads, looked up for the counts and the report of a
//! difference. Written from document 01; nothing is compared with it.

use reference::{Machine, Memory};

pub const DEVICES: u32 = 0x1000_0000;
pub const DEVICE_BYTES: u32 = 0x2D0;
pub const BOOTSTRAP: u32 = 0x1FC0_0000;
pub const RAM: u32 = 0x2000_0000;

const FIRST_TRANSLATED: u32 = 0x2000_0000;
const FIRST_OF_USER: u32 = 0x8000_0000;
const PAGE: u32 = 0xFFFF_F000;
const VALID: u32 = 1 << 9;
const GLOBAL: u32 = 1 << 8;

/// The way of one address: alignment and D are not looked at.
#[derive(Clone, Copy)]
pub struct Route {
    pub address: u32,
    /// None where privilege, a miss or V off forbids the access.
    pub physical: Option<u32>,
    /// The row that counts.
    pub row: Option<usize>,
    /// Whether a higher row matches as well.
    pub doubled: bool,
    /// Whether the row's ASID differs, so that only G made it match.
    pub by_global: bool,
    /// Whether a row has the page but neither the ASID nor G.
    pub wrong_asid: bool,
}

pub fn user_mode(machine: &Machine) -> bool {
    machine.status.0 & 2 != 0
}

pub fn translation(machine: &Machine) -> bool {
    machine.status.0 & 1 << 24 != 0
}

pub fn route(machine: &Machine, address: u32) -> Route {
    let mut route = Route {
        address,
        physical: None,
        row: None,
        doubled: false,
        by_global: false,
        wrong_asid: false,
    };
    let open_from = match (user_mode(machine), translation(machine)) {
        (false, _) => 0,
        (true, false) => FIRST_TRANSLATED,
        (true, true) => FIRST_OF_USER,
    };
    if address < open_from {
        return route;
    }
    if !translation(machine) || address < FIRST_TRANSLATED {
        route.physical = Some(address);
        return route;
    }
    for (number, entry) in machine.tlb.iter().enumerate() {
        if (entry.high ^ address) & PAGE != 0 {
            continue;
        }
        let same_asid = (entry.high ^ machine.entry_hi) & 0xFC0 == 0;
        if !same_asid && entry.low & GLOBAL == 0 {
            route.wrong_asid = true;
        } else if route.row.is_some() {
            route.doubled = true;
        } else {
            route.row = Some(number);
            route.by_global = !same_asid;
        }
    }
    let low = route.row.map(|number| machine.tlb[number].low);
    route.physical = low.filter(|low| low & VALID != 0).map(|low| low & PAGE | address & !PAGE);
    route
}

fn word_in(bytes: &[u8], place: u32) -> Option<u32> {
    let place = place as usize;
    let four = bytes.get(place..place.checked_add(4)?)?;
    Some(u32::from_le_bytes([four[0], four[1], four[2], four[3]]))
}

pub fn device_offset(physical: u32) -> Option<u32> {
    physical.checked_sub(DEVICES).filter(|offset| *offset < DEVICE_BYTES)
}

/// The word that a fetch at PC finds, without a test of interrupts.
pub fn word_at_pc(machine: &Machine, memory: &Memory, fetch: &Route) -> Option<u32> {
    let physical = fetch.physical.filter(|_| machine.pc % 4 == 0)?;
    if physical >= RAM {
        word_in(memory.ram, physical - RAM)
    } else if physical >= BOOTSTRAP {
        word_in(memory.bootstrap_rom, physical - BOOTSTRAP)
    } else {
        word_in(memory.execution_rom, physical)
    }
}
