//! The two calls on the ROMs alone.

use crate::memory::{BOOTSTRAP_ROM_BASE, EXECUTION_ROM_BASE};
use crate::sizes::rom_fits;

fn part_from(rom: &[u8], base: u32, address: u64) -> Option<&[u8]> {
    let place = usize::try_from(address.checked_sub(base.into())?).ok()?;
    rom.get(place..place.checked_add(4)?)
}

/// 0 where the window has its four bytes, else 2 or 9.
pub fn rom_answer(execution: &[u8], bootstrap: &[u8], address: u64) -> u8 {
    if !(rom_fits(execution.len()) && rom_fits(bootstrap.len())) {
        2
    } else if rom_window(execution, bootstrap, address).is_empty() {
        9
    } else {
        0
    }
}

/// The four bytes at a physical address, a part of the ROM that holds it;
/// empty exactly where `rom_answer` refuses.
pub fn rom_window<'a>(execution: &'a [u8], bootstrap: &'a [u8], address: u64) -> &'a [u8] {
    let roms_fit = rom_fits(execution.len()) && rom_fits(bootstrap.len());
    if !(roms_fit && address % 4 == 0) {
        return &[];
    }
    part_from(execution, EXECUTION_ROM_BASE, address)
        .or_else(|| part_from(bootstrap, BOOTSTRAP_ROM_BASE, address))
        .unwrap_or(&[])
}
