//! The fault that is in force, or none: what is tested is then called itself.

use crate::faults::Fault;
use std::cell::Cell;

thread_local! {
    static FAULT: Cell<Option<Fault>> = Cell::new(None);
}

pub fn set_fault(fault: Option<Fault>) {
    FAULT.with(|now| now.set(fault));
}

pub fn fault() -> Option<Fault> {
    FAULT.with(Cell::get)
}
