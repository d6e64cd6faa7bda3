//! The archive's calls, or, while a fault is set, those of the tests' own model
//! with that fault.

use crate::fault_now::fault;
use crate::lent::Lent;
use crate::world::{Numbers, World};
use crate::{archive, model_ask, model_back, model_reset, model_run};
use reference::Answer;

/// A call of the model, on a copy of what is lent.
fn by_model(lent: &mut Lent, call: impl FnOnce(&mut World) -> Answer) -> u64 {
    let mut world = lent.world();
    let answer = call(&mut world);
    lent.put(&world);
    answer.packed()
}

pub fn reset(lent: &mut Lent, numbers: &Numbers) -> u64 {
    match fault() {
        None => archive::reset(lent, numbers),
        Some(fault) => by_model(lent, |world| model_reset::reset(fault, world, numbers)),
    }
}

pub fn run(lent: &mut Lent, budget: u64, stop: u64) -> u64 {
    match fault() {
        None => archive::run(lent, budget, stop),
        Some(fault) => by_model(lent, |world| model_run::run(fault, world, budget, stop)),
    }
}

pub fn take_back(lent: &mut Lent, steps: u64) -> u64 {
    match fault() {
        None => archive::take_back(lent, steps),
        Some(fault) => by_model(lent, |world| model_back::take_back(fault, world, steps)),
    }
}

pub fn last_write(lent: &mut Lent, address: u64, answer: &mut [u8]) -> u64 {
    match fault() {
        None => archive::last_write(lent, address, answer),
        Some(fault) => by_model(lent, |world| model_ask::ask(fault, world, address, answer)),
    }
}
