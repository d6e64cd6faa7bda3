//! Loads and stores, at the place on the bus that their address leads to.

use crate::address::Access;
use crate::bus;
use crate::exception::{Exception, RESERVED};
use crate::machine::Machine;
use crate::memory::{device_offset, ram_place, Memory};
use crate::record::Recorder;
use crate::word::{opcode, rt};

/// How far the byte at `place` lies from the low end of its word, in bits.
fn bits_below(place: u32) -> u32 {
    (place & 3) * 8
}

#[inline]
pub fn load<R: Recorder>(
    machine: &mut Machine,
    memory: &Memory,
    recorder: &mut R,
    word: u32,
    place: u32,
) -> Result<(), Exception> {
    let below = bits_below(place);
    let old = machine.register(rt(word));
    let value = match opcode(word) {
        0x20 => (loaded(memory, place)? >> below) as i8 as u32,
        0x21 => (loaded(memory, place)? >> below) as i16 as u32,
        0x22 => {
            let above = 24 - below;
            let kept = (1 << above) - 1;
            loaded(memory, place)? << above | old & kept
        }
        0x23 => load_word(machine, memory, place)?,
        0x24 => (loaded(memory, place)? >> below) & 0xFF,
        0x25 => (loaded(memory, place)? >> below) & 0xFFFF,
        0x26 => {
            let kept = !(u32::MAX >> below);
            loaded(memory, place)? >> below | old & kept
        }
        _ => return Err(Exception::plain(RESERVED)),
    };
    machine.set_register(recorder, rt(word), value);
    Ok(())
}

/// The word that holds the byte at `place`, for all loads but LW, which the
/// device area does not answer.
fn loaded(memory: &Memory, place: u32) -> Result<u32, Exception> {
    memory.word(place).ok_or(Access::Load.bus_error())
}

#[inline]
fn load_word(machine: &Machine, memory: &Memory, place: u32) -> Result<u32, Exception> {
    if let Some(value) = memory.word(place) {
        return Ok(value);
    }
    match device_offset(place) {
        Some(offset) => Ok(bus::read(machine, memory, offset)),
        None => Err(Access::Load.bus_error()),
    }
}

#[inline]
pub fn store<R: Recorder>(
    machine: &mut Machine,
    memory: &mut Memory,
    recorder: &mut R,
    word: u32,
    place: u32,
) -> Result<(), Exception> {
    let value = machine.register(rt(word));
    let below = bits_below(place);
    // Which bits of the memory word are written, and the value in their place.
    let (written, moved) = match opcode(word) {
        0x28 => (0xFF << below, value << below),
        0x29 => (0xFFFF << below, value << below),
        0x2A => (u32::MAX >> (24 - below), value >> (24 - below)),
        0x2B => return store_word(machine, memory, recorder, place, value),
        0x2E => (u32::MAX << below, value << below),
        _ => return Err(Exception::plain(RESERVED)),
    };
    let place = ram_place(place);
    let old = memory.ram_word(place).ok_or_else(|| Access::Store.bus_error())?;
    recorder.ram_word(place, old);
    memory.set_ram_word(place, old & !written | moved & written);
    Ok(())
}

#[inline]
fn store_word<R: Recorder>(
    machine: &mut Machine,
    memory: &mut Memory,
    recorder: &mut R,
    place: u32,
    value: u32,
) -> Result<(), Exception> {
    let in_ram = ram_place(place);
    if let Some(old) = memory.ram_word(in_ram) {
        recorder.ram_word(in_ram, old);
        memory.set_ram_word(in_ram, value);
        return Ok(());
    }
    let offset = device_offset(place).ok_or_else(|| Access::Store.bus_error())?;
    bus::write(machine, memory.ram.len(), recorder, offset, value);
    Ok(())
}
