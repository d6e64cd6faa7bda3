//! SPECIAL instructions on registers, HI and LO.

use crate::branch::{link, Way};
use crate::exception::{Exception, BREAKPOINT, OVERFLOW, RESERVED, SYSCALL};
use crate::machine::Machine;
use crate::record::Recorder;
use crate::word::{function, rd, rs, rt, shift_amount};

pub fn add_or_overflow(a: u32, b: u32) -> Result<u32, Exception> {
    match (a as i32).checked_add(b as i32) {
        Some(sum) => Ok(sum as u32),
        None => Err(Exception::plain(OVERFLOW)),
    }
}

fn subtract_or_overflow(a: u32, b: u32) -> Result<u32, Exception> {
    match (a as i32).checked_sub(b as i32) {
        Some(difference) => Ok(difference as u32),
        None => Err(Exception::plain(OVERFLOW)),
    }
}

fn set_hi_lo(machine: &mut Machine, product: u64) {
    machine.hi = (product >> 32) as u32;
    machine.lo = product as u32;
}

/// Wrapping, so that -2^31 / -1 gives -2^31 and 0. Divide by 0 keeps both.
fn divide(machine: &mut Machine, a: u32, b: u32) {
    if b != 0 {
        machine.lo = (a as i32).wrapping_div(b as i32) as u32;
        machine.hi = (a as i32).wrapping_rem(b as i32) as u32;
    }
}

fn divide_unsigned(machine: &mut Machine, a: u32, b: u32) {
    if let (Some(quotient), Some(remainder)) = (a.checked_div(b), a.checked_rem(b)) {
        machine.lo = quotient;
        machine.hi = remainder;
    }
}

/// Executes a SPECIAL word; JR and JALR are among them.
#[inline]
pub fn special<R: Recorder>(
    machine: &mut Machine,
    recorder: &mut R,
    word: u32,
) -> Result<Way, Exception> {
    let a = machine.register(rs(word));
    let b = machine.register(rt(word));
    let result = match function(word) {
        0 => b << shift_amount(word),
        2 => b >> shift_amount(word),
        3 => (b as i32 >> shift_amount(word)) as u32,
        4 => b << (a & 31),
        6 => b >> (a & 31),
        7 => (b as i32 >> (a & 31)) as u32,
        8 => return Ok(Way::To(a)),
        9 => {
            machine.set_register(recorder, rd(word), link(machine.pc));
            return Ok(Way::To(a));
        }
        12 => return Err(Exception::plain(SYSCALL)),
        13 => return Err(Exception::plain(BREAKPOINT)),
        16 => machine.hi,
        18 => machine.lo,
        17 | 19 | 24..=27 => {
            write_hi_lo(machine, function(word), a, b);
            return Ok(Way::On);
        }
        32 => add_or_overflow(a, b)?,
        33 => a.wrapping_add(b),
        34 => subtract_or_overflow(a, b)?,
        35 => a.wrapping_sub(b),
        36 => a & b,
        37 => a | b,
        38 => a ^ b,
        39 => !(a | b),
        42 => u32::from((a as i32) < b as i32),
        43 => u32::from(a < b),
        _ => return Err(Exception::plain(RESERVED)),
    };
    machine.set_register(recorder, rd(word), result);
    Ok(Way::On)
}

fn write_hi_lo(machine: &mut Machine, function: u32, a: u32, b: u32) {
    match function {
        17 => machine.hi = a,
        19 => machine.lo = a,
        24 => set_hi_lo(machine, (i64::from(a as i32) * i64::from(b as i32)) as u64),
        25 => set_hi_lo(machine, u64::from(a) * u64::from(b)),
        26 => divide(machine, a, b),
        _ => divide_unsigned(machine, a, b),
    }
}
