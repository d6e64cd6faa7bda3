//! From the address of an access to the place on the bus.

use crate::exception::{
    Exception, ADDRESS_LOAD, ADDRESS_STORE, BUS_DATA, BUS_FETCH, MODIFICATION, TLB_LOAD, TLB_STORE,
};
use crate::machine::Machine;
use crate::pages::{Page, Pages};
use crate::tlb::{search, ASID, DIRTY, PAGE, VALID};

/// Below this an address is never translated and never open to user mode.
const TRANSLATED_FROM: u32 = 0x2000_0000;

/// With translation on, user mode is kept out of everything below this.
const USER_FROM: u32 = 0x8000_0000;

#[derive(Clone, Copy, Debug, PartialEq, Eq)]
pub enum Access {
    Fetch,
    Load,
    Store,
}

impl Access {
    pub fn address_error(self, address: u32) -> Exception {
        let code = if self == Access::Store { ADDRESS_STORE } else { ADDRESS_LOAD };
        Exception::at(code, address)
    }

    pub fn bus_error(self) -> Exception {
        Exception::plain(if self == Access::Fetch { BUS_FETCH } else { BUS_DATA })
    }

    fn table_code(self) -> u8 {
        if self == Access::Store {
            TLB_STORE
        } else {
            TLB_LOAD
        }
    }
}

/// What a second entry that matches does: a run stops before the step, and the
/// step, where it is taken all the same, goes on with the lowest.
#[derive(Clone, Copy, PartialEq, Eq)]
pub enum Second {
    Stops,
    IsPassedBy,
}

/// Why there is no way on.
pub enum Stop {
    Raised(Exception),
    TwoMatches,
}

impl From<Exception> for Stop {
    fn from(exception: Exception) -> Stop {
        Stop::Raised(exception)
    }
}

/// The place on the bus that an access leads to, by alignment, privilege and
/// translation. The low twelve bits of the address stay as they are.
#[inline]
pub fn route(
    machine: &Machine,
    pages: &mut Pages,
    address: u32,
    bytes: u32,
    access: Access,
    second: Second,
) -> Result<u32, Stop> {
    if address & (bytes - 1) != 0 || !allowed(machine, address) {
        return Err(access.address_error(address).into());
    }
    if machine.status.virtual_memory() && address >= TRANSLATED_FROM {
        let page = pages.of(access);
        let wanted = address & PAGE | machine.entry_hi & ASID;
        if !page.is(wanted) {
            *page = looked_for(machine, address, access, second)?;
        }
        return translated(page.low, address, access);
    }
    Ok(address)
}

#[inline]
fn allowed(machine: &Machine, address: u32) -> bool {
    let status = machine.status;
    let open_from = if status.virtual_memory() { USER_FROM } else { TRANSLATED_FROM };
    !status.user_mode() || address >= open_from
}

/// Apart, so that the ways without a search stay short. A page that two entries
/// match is nothing to remember, also where the step is taken all the same.
#[inline(never)]
fn looked_for(
    machine: &Machine,
    address: u32,
    access: Access,
    second: Second,
) -> Result<Page, Stop> {
    let found = search(&machine.tlb, address, machine.entry_hi)
        .ok_or_else(|| Exception::miss(access.table_code(), address))?;
    let low = machine.tlb[found.number].low;
    match (found.second, second) {
        (false, _) => Ok(Page::found(address & PAGE | machine.entry_hi & ASID, low)),
        (true, Second::IsPassedBy) => Ok(Page::once(low)),
        (true, Second::Stops) => Err(Stop::TwoMatches),
    }
}

/// V and D are looked at with each access, whatever the page was found for.
#[inline]
fn translated(low: u32, address: u32, access: Access) -> Result<u32, Stop> {
    if low & VALID == 0 {
        return Err(Exception::at(access.table_code(), address).into());
    }
    if access == Access::Store && low & DIRTY == 0 {
        return Err(Exception::at(MODIFICATION, address).into());
    }
    Ok(low & PAGE | address & !PAGE)
}
