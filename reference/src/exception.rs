//! Exceptions and what entering one changes.

use crate::machine::Machine;
use crate::tlb::PAGE;

pub const INTERRUPT: u8 = 0;
pub const MODIFICATION: u8 = 1;
pub const TLB_LOAD: u8 = 2;
pub const TLB_STORE: u8 = 3;
pub const ADDRESS_LOAD: u8 = 4;
pub const ADDRESS_STORE: u8 = 5;
pub const BUS_FETCH: u8 = 6;
pub const BUS_DATA: u8 = 7;
pub const SYSCALL: u8 = 8;
pub const BREAKPOINT: u8 = 9;
pub const RESERVED: u8 = 10;
pub const UNUSABLE: u8 = 11;
pub const OVERFLOW: u8 = 12;

pub const HIGHEST_CODE: u32 = 12;

pub const CAUSE_MASK: u32 = 0xB000_FF7C;
pub const EXC_CODE_SHIFT: u32 = 2;
pub const CE_SHIFT: u32 = 28;
pub const BD: u32 = 1 << 31;
pub const IP_FIELD: u32 = 0xFF00;
pub const IP_SOFTWARE: u32 = 0x0300;
pub const IP_TIMER: u32 = 1 << 10;
pub const IP_DISKS: u32 = 1 << 11;
pub const IP_PRINTERS: u32 = 1 << 14;

const VECTOR: u32 = 0x80;
const MISS_VECTOR: u32 = 0;
const BOOT_BASE: u32 = 0x1FC0_0100;

/// Kept small: most of what a step hands on is the answer that there is none.
#[derive(Clone, Copy, Debug, PartialEq, Eq)]
pub struct Exception {
    pub code: u8,
    /// Counts for codes 1 to 5 only.
    pub address: u32,
    pub coprocessor: u8,
    /// No entry of the table matched, which has a vector of its own.
    pub miss: bool,
}

impl Exception {
    pub const fn plain(code: u8) -> Exception {
        Exception { code, address: 0, coprocessor: 0, miss: false }
    }

    pub const fn at(code: u8, address: u32) -> Exception {
        Exception { code, address, coprocessor: 0, miss: false }
    }

    pub const fn miss(code: u8, address: u32) -> Exception {
        Exception { code, address, coprocessor: 0, miss: true }
    }

    pub const fn unusable(coprocessor: u8) -> Exception {
        Exception { code: UNUSABLE, address: 0, coprocessor, miss: false }
    }
}

/// EPC and BD: in a slot the branch is to be run again, not the slot alone.
fn return_address(machine: &Machine) -> (u32, u32) {
    if machine.slot_flag != 0 {
        (machine.branch_address, BD)
    } else {
        (machine.pc, 0)
    }
}

/// Exception entry of document 01, with request L2. What follows is no slot.
#[cold]
pub fn enter(machine: &mut Machine, exception: Exception) {
    let code = exception.code;
    let (epc, bd) = return_address(machine);
    machine.epc = epc;
    machine.cause = machine.cause & IP_FIELD
        | u32::from(code) << EXC_CODE_SHIFT
        | u32::from(exception.coprocessor) << CE_SHIFT
        | bd;
    machine.slot_flag = 0;
    machine.branch_address = 0;
    if (MODIFICATION..=ADDRESS_STORE).contains(&code) {
        machine.bad_vaddr = exception.address;
    }
    if (MODIFICATION..=TLB_STORE).contains(&code) {
        machine.entry_hi = exception.address & PAGE | machine.entry_hi & !PAGE;
    }
    let base = if machine.status.boot_vectors() { BOOT_BASE } else { 0 };
    machine.pc = base + if exception.miss { MISS_VECTOR } else { VECTOR };
    machine.next_pc = machine.pc + 4;
    machine.status = machine.status.pushed();
}
