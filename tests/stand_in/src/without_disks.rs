//! The calls of a machine without disks, as the archive has them now.

use crate::{read, write};

#[no_mangle]
pub unsafe extern "C" fn lavushmir_reset(
    image: *mut u8,
    image_bytes: usize,
    index: *mut u8,
    index_bytes: usize,
    time_scale: u64,
    printer_delay: u64,
    installed: u64,
) -> u64 {
    let (image, index) = (write(image, image_bytes), write(index, index_bytes));
    reference::diskless::reset(image, index, time_scale, printer_delay, installed).packed()
}

#[no_mangle]
pub unsafe extern "C" fn lavushmir_run(
    image: *mut u8,
    image_bytes: usize,
    execution_rom: *const u8,
    execution_rom_bytes: usize,
    bootstrap_rom: *const u8,
    bootstrap_rom_bytes: usize,
    ram: *mut u8,
    ram_bytes: usize,
    paper: *mut u8,
    paper_bytes: usize,
    journal: *mut u8,
    journal_bytes: usize,
    index: *mut u8,
    index_bytes: usize,
    budget: u64,
    stop_at_exceptions: u64,
) -> u64 {
    reference::diskless::run_with_records(
        write(image, image_bytes),
        read(execution_rom, execution_rom_bytes),
        read(bootstrap_rom, bootstrap_rom_bytes),
        write(ram, ram_bytes),
        write(paper, paper_bytes),
        write(journal, journal_bytes),
        write(index, index_bytes),
        budget,
        stop_at_exceptions,
    )
    .packed()
}

#[no_mangle]
pub unsafe extern "C" fn lavushmir_take_back(
    image: *mut u8,
    image_bytes: usize,
    ram: *mut u8,
    ram_bytes: usize,
    paper: *mut u8,
    paper_bytes: usize,
    journal: *const u8,
    journal_bytes: usize,
    index: *mut u8,
    index_bytes: usize,
    steps: u64,
) -> u64 {
    reference::diskless::take_back(
        write(image, image_bytes),
        write(ram, ram_bytes),
        write(paper, paper_bytes),
        read(journal, journal_bytes),
        write(index, index_bytes),
        steps,
    )
    .packed()
}

#[no_mangle]
pub unsafe extern "C" fn lavushmir_last_write(
    image: *const u8,
    image_bytes: usize,
    ram: *const u8,
    ram_bytes: usize,
    paper: *const u8,
    paper_bytes: usize,
    journal: *const u8,
    journal_bytes: usize,
    index: *const u8,
    index_bytes: usize,
    address: u64,
    answer: *mut u8,
    answer_bytes: usize,
) -> u64 {
    reference::diskless::last_write(
        read(image, image_bytes),
        read(ram, ram_bytes),
        read(paper, paper_bytes),
        read(journal, journal_bytes),
        read(index, index_bytes),
        address,
        write(answer, answer_bytes),
    )
    .packed()
}
