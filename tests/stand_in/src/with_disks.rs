//! The calls that are lent disks, as the archive will have them.

use crate::{read, write};

#[rustfmt::skip]
#[no_mangle]
pub unsafe extern "C" fn lavushmir_reset(
    image: *mut u8, image_bytes: usize, index: *mut u8, index_bytes: usize,
    time_scale: u64, printer_delay: u64, installed: u64, disks: u64,
    geometry_0: u64, geometry_1: u64, geometry_2: u64, geometry_3: u64,
    geometry_4: u64, geometry_5: u64, geometry_6: u64, geometry_7: u64,
) -> u64 {
    let (image, index) = (write(image, image_bytes), write(index, index_bytes));
    let geometry = [
        geometry_0, geometry_1, geometry_2, geometry_3,
        geometry_4, geometry_5, geometry_6, geometry_7,
    ];
    reference::reset(image, index, time_scale, printer_delay, installed, disks, geometry).packed()
}

#[rustfmt::skip]
#[no_mangle]
pub unsafe extern "C" fn lavushmir_run(
    image: *mut u8, image_bytes: usize, execution: *const u8, execution_bytes: usize,
    bootstrap: *const u8, bootstrap_bytes: usize, ram: *mut u8, ram_bytes: usize,
    paper: *mut u8, paper_bytes: usize, journal: *mut u8, journal_bytes: usize,
    index: *mut u8, index_bytes: usize,
    disk_0: *mut u8, bytes_0: usize, disk_1: *mut u8, bytes_1: usize,
    disk_2: *mut u8, bytes_2: usize, disk_3: *mut u8, bytes_3: usize,
    disk_4: *mut u8, bytes_4: usize, disk_5: *mut u8, bytes_5: usize,
    disk_6: *mut u8, bytes_6: usize, disk_7: *mut u8, bytes_7: usize,
    budget: u64, stop: u64,
) -> u64 {
    let disks = [
        write(disk_0, bytes_0), write(disk_1, bytes_1), write(disk_2, bytes_2),
        write(disk_3, bytes_3), write(disk_4, bytes_4), write(disk_5, bytes_5),
        write(disk_6, bytes_6), write(disk_7, bytes_7),
    ];
    reference::run_with_records(
        write(image, image_bytes), read(execution, execution_bytes),
        read(bootstrap, bootstrap_bytes), write(ram, ram_bytes), write(paper, paper_bytes),
        write(journal, journal_bytes), write(index, index_bytes), disks, budget, stop,
    )
    .packed()
}

#[rustfmt::skip]
#[no_mangle]
pub unsafe extern "C" fn lavushmir_take_back(
    image: *mut u8, image_bytes: usize, ram: *mut u8, ram_bytes: usize,
    paper: *mut u8, paper_bytes: usize, journal: *const u8, journal_bytes: usize,
    index: *mut u8, index_bytes: usize,
    disk_0: *mut u8, bytes_0: usize, disk_1: *mut u8, bytes_1: usize,
    disk_2: *mut u8, bytes_2: usize, disk_3: *mut u8, bytes_3: usize,
    disk_4: *mut u8, bytes_4: usize, disk_5: *mut u8, bytes_5: usize,
    disk_6: *mut u8, bytes_6: usize, disk_7: *mut u8, bytes_7: usize,
    steps: u64,
) -> u64 {
    let disks = [
        write(disk_0, bytes_0), write(disk_1, bytes_1), write(disk_2, bytes_2),
        write(disk_3, bytes_3), write(disk_4, bytes_4), write(disk_5, bytes_5),
        write(disk_6, bytes_6), write(disk_7, bytes_7),
    ];
    reference::take_back(
        write(image, image_bytes), write(ram, ram_bytes), write(paper, paper_bytes),
        read(journal, journal_bytes), write(index, index_bytes), disks, steps,
    )
    .packed()
}

#[rustfmt::skip]
#[no_mangle]
pub unsafe extern "C" fn lavushmir_last_write(
    image: *const u8, image_bytes: usize, ram: *const u8, ram_bytes: usize,
    paper: *const u8, paper_bytes: usize, journal: *const u8, journal_bytes: usize,
    index: *const u8, index_bytes: usize,
    disk_0: *const u8, bytes_0: usize, disk_1: *const u8, bytes_1: usize,
    disk_2: *const u8, bytes_2: usize, disk_3: *const u8, bytes_3: usize,
    disk_4: *const u8, bytes_4: usize, disk_5: *const u8, bytes_5: usize,
    disk_6: *const u8, bytes_6: usize, disk_7: *const u8, bytes_7: usize,
    address: u64, answer: *mut u8, answer_bytes: usize,
) -> u64 {
    let disks = [
        read(disk_0, bytes_0), read(disk_1, bytes_1), read(disk_2, bytes_2),
        read(disk_3, bytes_3), read(disk_4, bytes_4), read(disk_5, bytes_5),
        read(disk_6, bytes_6), read(disk_7, bytes_7),
    ];
    reference::last_write(
        read(image, image_bytes), read(ram, ram_bytes), read(paper, paper_bytes),
        read(journal, journal_bytes), read(index, index_bytes), disks, address,
        write(answer, answer_bytes),
    )
    .packed()
}
