//! Part 1 of a step: the clock group and Random.

use crate::exception::IP_TIMER;
use crate::machine::Machine;

const RANDOM_LOWEST: u32 = 1 << 8;
const RANDOM_HIGHEST: u32 = 15 << 8;

#[inline]
pub fn tick(machine: &mut Machine) {
    machine.clock = machine.clock.wrapping_add(1);
    if machine.timer == 0 {
        machine.cause |= IP_TIMER;
    }
    machine.timer = machine.timer.wrapping_sub(1);
    machine.random = if machine.random == RANDOM_LOWEST {
        RANDOM_HIGHEST
    } else {
        machine.random - RANDOM_LOWEST
    };
}
