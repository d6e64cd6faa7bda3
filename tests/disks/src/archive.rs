//! The archive's calls with disks, on slices, each with its packed answer. All
//! else here speaks to the archive through this file.

use crate::lent::Lent;
use crate::world::Numbers;

#[rustfmt::skip]
extern "C" {
    fn lavushmir_reset(
        image: *mut u8, image_bytes: usize, index: *mut u8, index_bytes: usize,
        time_scale: u64, printer_delay: u64, installed: u64, disks: u64,
        geometry_0: u64, geometry_1: u64, geometry_2: u64, geometry_3: u64,
        geometry_4: u64, geometry_5: u64, geometry_6: u64, geometry_7: u64,
    ) -> u64;

    fn lavushmir_run(
        image: *mut u8, image_bytes: usize, execution: *const u8, execution_bytes: usize,
        bootstrap: *const u8, bootstrap_bytes: usize, ram: *mut u8, ram_bytes: usize,
        paper: *mut u8, paper_bytes: usize, journal: *mut u8, journal_bytes: usize,
        index: *mut u8, index_bytes: usize,
        disk_0: *mut u8, bytes_0: usize, disk_1: *mut u8, bytes_1: usize,
        disk_2: *mut u8, bytes_2: usize, disk_3: *mut u8, bytes_3: usize,
        disk_4: *mut u8, bytes_4: usize, disk_5: *mut u8, bytes_5: usize,
        disk_6: *mut u8, bytes_6: usize, disk_7: *mut u8, bytes_7: usize,
        budget: u64, stop: u64,
    ) -> u64;

    fn lavushmir_take_back(
        image: *mut u8, image_bytes: usize, ram: *mut u8, ram_bytes: usize,
        paper: *mut u8, paper_bytes: usize, journal: *const u8, journal_bytes: usize,
        index: *mut u8, index_bytes: usize,
        disk_0: *mut u8, bytes_0: usize, disk_1: *mut u8, bytes_1: usize,
        disk_2: *mut u8, bytes_2: usize, disk_3: *mut u8, bytes_3: usize,
        disk_4: *mut u8, bytes_4: usize, disk_5: *mut u8, bytes_5: usize,
        disk_6: *mut u8, bytes_6: usize, disk_7: *mut u8, bytes_7: usize,
        steps: u64,
    ) -> u64;

    fn lavushmir_last_write(
        image: *const u8, image_bytes: usize, ram: *const u8, ram_bytes: usize,
        paper: *const u8, paper_bytes: usize, journal: *const u8, journal_bytes: usize,
        index: *const u8, index_bytes: usize,
        disk_0: *const u8, bytes_0: usize, disk_1: *const u8, bytes_1: usize,
        disk_2: *const u8, bytes_2: usize, disk_3: *const u8, bytes_3: usize,
        disk_4: *const u8, bytes_4: usize, disk_5: *const u8, bytes_5: usize,
        disk_6: *const u8, bytes_6: usize, disk_7: *const u8, bytes_7: usize,
        address: u64, answer: *mut u8, answer_bytes: usize,
    ) -> u64;
}

// SAFETY, of all four: each pointer and length are those of one live buffer; those
// that are written are buffers of their own.

#[rustfmt::skip]
pub fn reset(lent: &mut Lent, numbers: &Numbers) -> u64 {
    let Numbers { time_scale, delay, installed, disks, geometry: g } = *numbers;
    let (image, index) = (lent.image.content_mut(), lent.index.content_mut());
    unsafe {
        lavushmir_reset(
            image.as_mut_ptr(), image.len(), index.as_mut_ptr(), index.len(),
            time_scale, delay, installed, disks, g[0], g[1], g[2], g[3], g[4], g[5], g[6], g[7],
        )
    }
}

#[rustfmt::skip]
pub fn run(lent: &mut Lent, budget: u64, stop: u64) -> u64 {
    let (image, ram) = (lent.image.content_mut(), lent.ram.content_mut());
    let (paper, journal) = (lent.paper.content_mut(), lent.journal.content_mut());
    let (index, execution) = (lent.index.content_mut(), lent.execution.content());
    let bootstrap = lent.bootstrap.content();
    let [a, b, c, d, e, f, g, h] = lent.disks.each_mut().map(|disk| disk.content_mut());
    unsafe {
        lavushmir_run(
            image.as_mut_ptr(), image.len(), execution.as_ptr(), execution.len(),
            bootstrap.as_ptr(), bootstrap.len(), ram.as_mut_ptr(), ram.len(),
            paper.as_mut_ptr(), paper.len(), journal.as_mut_ptr(), journal.len(),
            index.as_mut_ptr(), index.len(),
            a.as_mut_ptr(), a.len(), b.as_mut_ptr(), b.len(), c.as_mut_ptr(), c.len(),
            d.as_mut_ptr(), d.len(), e.as_mut_ptr(), e.len(), f.as_mut_ptr(), f.len(),
            g.as_mut_ptr(), g.len(), h.as_mut_ptr(), h.len(), budget, stop,
        )
    }
}

#[rustfmt::skip]
pub fn take_back(lent: &mut Lent, steps: u64) -> u64 {
    let (image, ram) = (lent.image.content_mut(), lent.ram.content_mut());
    let (paper, journal) = (lent.paper.content_mut(), lent.journal.content());
    let index = lent.index.content_mut();
    let [a, b, c, d, e, f, g, h] = lent.disks.each_mut().map(|disk| disk.content_mut());
    unsafe {
        lavushmir_take_back(
            image.as_mut_ptr(), image.len(), ram.as_mut_ptr(), ram.len(),
            paper.as_mut_ptr(), paper.len(), journal.as_ptr(), journal.len(),
            index.as_mut_ptr(), index.len(),
            a.as_mut_ptr(), a.len(), b.as_mut_ptr(), b.len(), c.as_mut_ptr(), c.len(),
            d.as_mut_ptr(), d.len(), e.as_mut_ptr(), e.len(), f.as_mut_ptr(), f.len(),
            g.as_mut_ptr(), g.len(), h.as_mut_ptr(), h.len(), steps,
        )
    }
}

#[rustfmt::skip]
pub fn last_write(lent: &Lent, address: u64, answer: &mut [u8]) -> u64 {
    let (image, ram) = (lent.image.content(), lent.ram.content());
    let (paper, journal) = (lent.paper.content(), lent.journal.content());
    let index = lent.index.content();
    let [a, b, c, d, e, f, g, h] = lent.disks.each_ref().map(|disk| disk.content());
    unsafe {
        lavushmir_last_write(
            image.as_ptr(), image.len(), ram.as_ptr(), ram.len(),
            paper.as_ptr(), paper.len(), journal.as_ptr(), journal.len(),
            index.as_ptr(), index.len(),
            a.as_ptr(), a.len(), b.as_ptr(), b.len(), c.as_ptr(), c.len(),
            d.as_ptr(), d.len(), e.as_ptr(), e.len(), f.as_ptr(), f.len(),
            g.as_ptr(), g.len(), h.as_ptr(), h.len(),
            address, answer.as_mut_ptr(), answer.len(),
        )
    }
}
