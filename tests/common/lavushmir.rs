//! The archive's calls on slices, each with its packed answer.

extern "C" {
    fn lavushmir_reset(
        image: *mut u8,
        image_bytes: usize,
        index: *mut u8,
        index_bytes: usize,
        time_scale: u64,
        printer_delay: u64,
        installed: u64,
    ) -> u64;

    fn lavushmir_run(
        image: *mut u8,
        image_bytes: usize,
        execution_rom: *const u8,
        execution_rom_bytes: usize,
        bootstrap_rom: *const u8,
        bootstrap_rom_bytes: usize,
        ram: *mut u8,
        ram_bytes: usize,
        paper: *mut u8,
        paper_bytes: usize,
        journal: *mut u8,
        journal_bytes: usize,
        index: *mut u8,
        index_bytes: usize,
        budget: u64,
        stop_at_exceptions: u64,
    ) -> u64;

    fn lavushmir_take_back(
        image: *mut u8,
        image_bytes: usize,
        ram: *mut u8,
        ram_bytes: usize,
        paper: *mut u8,
        paper_bytes: usize,
        journal: *const u8,
        journal_bytes: usize,
        index: *mut u8,
        index_bytes: usize,
        steps: u64,
    ) -> u64;

    // Only tests/index asks.
    #[allow(dead_code)]
    fn lavushmir_last_write(
        image: *const u8,
        image_bytes: usize,
        ram: *const u8,
        ram_bytes: usize,
        paper: *const u8,
        paper_bytes: usize,
        journal: *const u8,
        journal_bytes: usize,
        index: *const u8,
        index_bytes: usize,
        address: u64,
        answer: *mut u8,
        answer_bytes: usize,
    ) -> u64;

    // Only tests/slots converts.
    #[allow(dead_code)]
    fn lavushmir_convert(
        old: *const u8,
        old_bytes: usize,
        image: *mut u8,
        image_bytes: usize,
        paper: *const u8,
        paper_bytes: usize,
        journal: *const u8,
        journal_bytes: usize,
    ) -> u64;
}

pub fn reset(
    image: &mut [u8],
    index: &mut [u8],
    time_scale: u64,
    printer_delay: u64,
    installed: u64,
) -> u64 {
    // SAFETY: each pointer and length are those of one live slice of its own.
    unsafe {
        lavushmir_reset(
            image.as_mut_ptr(),
            image.len(),
            index.as_mut_ptr(),
            index.len(),
            time_scale,
            printer_delay,
            installed,
        )
    }
}

#[allow(clippy::too_many_arguments)]
pub fn run(
    image: &mut [u8],
    execution_rom: &[u8],
    bootstrap_rom: &[u8],
    ram: &mut [u8],
    paper: &mut [u8],
    journal: &mut [u8],
    index: &mut [u8],
    budget: u64,
    stop_at_exceptions: u64,
) -> u64 {
    // SAFETY: each pointer and length are those of one live slice; those that
    // are written are slices of their own.
    unsafe {
        lavushmir_run(
            image.as_mut_ptr(),
            image.len(),
            execution_rom.as_ptr(),
            execution_rom.len(),
            bootstrap_rom.as_ptr(),
            bootstrap_rom.len(),
            ram.as_mut_ptr(),
            ram.len(),
            paper.as_mut_ptr(),
            paper.len(),
            journal.as_mut_ptr(),
            journal.len(),
            index.as_mut_ptr(),
            index.len(),
            budget,
            stop_at_exceptions,
        )
    }
}

pub fn take_back(
    image: &mut [u8],
    ram: &mut [u8],
    paper: &mut [u8],
    journal: &[u8],
    index: &mut [u8],
    steps: u64,
) -> u64 {
    // SAFETY: as in `run`; the journal is only read.
    unsafe {
        lavushmir_take_back(
            image.as_mut_ptr(),
            image.len(),
            ram.as_mut_ptr(),
            ram.len(),
            paper.as_mut_ptr(),
            paper.len(),
            journal.as_ptr(),
            journal.len(),
            index.as_mut_ptr(),
            index.len(),
            steps,
        )
    }
}

#[allow(dead_code)]
pub fn last_write(
    image: &[u8],
    ram: &[u8],
    paper: &[u8],
    journal: &[u8],
    index: &[u8],
    address: u64,
    answer: &mut [u8],
) -> u64 {
    // SAFETY: as in `run`; only the answer is written.
    unsafe {
        lavushmir_last_write(
            image.as_ptr(),
            image.len(),
            ram.as_ptr(),
            ram.len(),
            paper.as_ptr(),
            paper.len(),
            journal.as_ptr(),
            journal.len(),
            index.as_ptr(),
            index.len(),
            address,
            answer.as_mut_ptr(),
            answer.len(),
        )
    }
}

#[allow(dead_code)]
pub fn convert(old: &[u8], image: &mut [u8], paper: &[u8], journal: &[u8]) -> u64 {
    // SAFETY: as in `run`; only the image is written.
    unsafe {
        lavushmir_convert(
            old.as_ptr(),
            old.len(),
            image.as_mut_ptr(),
            image.len(),
            paper.as_ptr(),
            paper.len(),
            journal.as_ptr(),
            journal.len(),
        )
    }
}
