//! The reference behind the calls of include/lavushmir.h, and behind those that
//! tests/calls asks of the probe.

#![allow(clippy::missing_safety_doc, clippy::too_many_arguments)]

use std::slice::{from_raw_parts, from_raw_parts_mut};

#[cfg(feature = "disks")]
pub mod with_disks;
#[cfg(not(feature = "disks"))]
pub mod without_disks;

/// SAFETY, here and below: as include/lavushmir.h asks, each pointer and length
/// are those of one live buffer, and none is lent twice.
unsafe fn read<'a>(buffer: *const u8, bytes: usize) -> &'a [u8] {
    from_raw_parts(buffer, bytes)
}

unsafe fn write<'a>(buffer: *mut u8, bytes: usize) -> &'a mut [u8] {
    from_raw_parts_mut(buffer, bytes)
}

/// The archive has no disks yet. The calls say so by lending none: row 13 stands in
/// for row 5 there, and no comparison asks.
fn has_disk(image: &[u8]) -> bool {
    reference::decode(image).disks_installed != 0
}

#[no_mangle]
pub unsafe extern "C" fn lavushmir_convert(
    old: *const u8,
    old_bytes: usize,
    image: *mut u8,
    image_bytes: usize,
    paper: *const u8,
    paper_bytes: usize,
    journal: *const u8,
    journal_bytes: usize,
) -> u64 {
    reference::convert(
        read(old, old_bytes),
        write(image, image_bytes),
        read(paper, paper_bytes),
        read(journal, journal_bytes),
    )
    .packed()
}

#[no_mangle]
pub unsafe extern "C" fn lavushmir_test_rules(
    image: *const u8,
    image_bytes: usize,
    paper: u64,
    journal: u64,
) -> u64 {
    let image = read(image, image_bytes);
    // RAM's length counts for disks at work alone.
    (reference::keeps_rules(image, 4_096, paper as usize, journal as usize) && !has_disk(image))
        .into()
}

#[no_mangle]
pub unsafe extern "C" fn lavushmir_test_rom_answer(
    execution: *const u8,
    execution_bytes: usize,
    bootstrap: *const u8,
    bootstrap_bytes: usize,
    address: u64,
) -> u64 {
    let (execution, bootstrap) =
        (read(execution, execution_bytes), read(bootstrap, bootstrap_bytes));
    reference::rom_answer(execution, bootstrap, address).into()
}

#[no_mangle]
pub unsafe extern "C" fn lavushmir_test_rom_window(
    execution: *const u8,
    execution_bytes: usize,
    bootstrap: *const u8,
    bootstrap_bytes: usize,
    address: u64,
    out: *mut u8,
    out_bytes: usize,
) -> u64 {
    let (execution, bootstrap) =
        (read(execution, execution_bytes), read(bootstrap, bootstrap_bytes));
    let window = reference::rom_window(execution, bootstrap, address);
    write(out, out_bytes)[..window.len()].copy_from_slice(window);
    window.len() as u64
}
