//! The calls on a machine that has no disks: none are installed at reset, and
//! eight empty buffers are lent.

#![allow(clippy::too_many_arguments)]

use crate::answer::Answer;
use crate::memory::no_disks;
use crate::{calls, journal};

pub fn reset(
    image: &mut [u8],
    index: &mut [u8],
    time_scale: u64,
    printer_delay: u64,
    installed: u64,
) -> Answer {
    crate::reset::reset(image, index, time_scale, printer_delay, installed, 0, [0; 8])
}

pub fn run(
    image: &mut [u8],
    execution_rom: &[u8],
    bootstrap_rom: &[u8],
    ram: &mut [u8],
    paper: &mut [u8],
    journal: &mut [u8],
    budget: u64,
    stop: u64,
) -> Answer {
    let disks = no_disks();
    calls::run(image, execution_rom, bootstrap_rom, ram, paper, journal, disks, budget, stop)
}

pub fn run_with_records(
    image: &mut [u8],
    execution_rom: &[u8],
    bootstrap_rom: &[u8],
    ram: &mut [u8],
    paper: &mut [u8],
    journal: &mut [u8],
    index: &mut [u8],
    budget: u64,
    stop: u64,
) -> Answer {
    journal::run_with_records(
        image,
        execution_rom,
        bootstrap_rom,
        ram,
        paper,
        journal,
        index,
        no_disks(),
        budget,
        stop,
    )
}

pub fn take_back(
    image: &mut [u8],
    ram: &mut [u8],
    paper: &mut [u8],
    journal: &[u8],
    index: &mut [u8],
    steps: u64,
) -> Answer {
    crate::take_back::take_back(image, ram, paper, journal, index, no_disks(), steps)
}

pub fn last_write(
    image: &[u8],
    ram: &[u8],
    paper: &[u8],
    journal: &[u8],
    index: &[u8],
    address: u64,
    answer: &mut [u8],
) -> Answer {
    let disks = [&[][..]; 8];
    crate::last_write::last_write(image, ram, paper, journal, index, disks, address, answer)
}
