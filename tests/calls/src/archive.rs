//! The calls of the archive, made safe: each is given buffers between guard
//! bytes, and a call that wrote where it must not is an error.

use crate::guarded::Guarded;
use crate::lavushmir;

// From an archive of its own, for these tests only.
#[link(name = "probe", kind = "static")]
extern "C" {
    fn lavushmir_test_rules(image: *const u8, image_bytes: usize, paper: u64, journal: u64) -> u64;
    fn lavushmir_test_rom_answer(
        execution: *const u8,
        execution_bytes: usize,
        bootstrap: *const u8,
        bootstrap_bytes: usize,
        address: u64,
    ) -> u64;
    fn lavushmir_test_rom_window(
        execution: *const u8,
        execution_bytes: usize,
        bootstrap: *const u8,
        bootstrap_bytes: usize,
        address: u64,
        out: *mut u8,
        out_bytes: usize,
    ) -> u64;
}

fn unless(wrong: Option<String>, answer: u64) -> Result<u64, String> {
    match wrong {
        None => Ok(answer),
        Some(what) => Err(what),
    }
}

/// The packed answer; image and index are written in place.
pub fn reset(
    image: &mut Guarded,
    index: &mut Guarded,
    time_scale: u64,
    printer_delay: u64,
    installed: u64,
) -> Result<u64, String> {
    let (image_bytes, index_bytes) = (image.content_mut(), index.content_mut());
    let answer = lavushmir::reset(image_bytes, index_bytes, time_scale, printer_delay, installed);
    unless(image.guards_hurt().or_else(|| index.guards_hurt()), answer)
}

/// 1 if the image keeps the rules, 0 if not.
pub fn rules(image: &Guarded, paper: u64, journal: u64) -> Result<u64, String> {
    // SAFETY: pointer and length are those of one live buffer, lent for reading.
    let verdict =
        unsafe { lavushmir_test_rules(image.content().as_ptr(), image.len(), paper, journal) };
    unless(image.touched(), verdict)
}

/// 0, 2 or 9.
pub fn rom_answer(execution: &Guarded, bootstrap: &Guarded, address: u64) -> Result<u64, String> {
    // SAFETY: each pointer and length are those of one live buffer, lent for reading.
    let answer = unsafe {
        lavushmir_test_rom_answer(
            execution.content().as_ptr(),
            execution.len(),
            bootstrap.content().as_ptr(),
            bootstrap.len(),
            address,
        )
    };
    unless(execution.touched().or_else(|| bootstrap.touched()), answer)
}

/// The length of the returned part; its bytes are at the start of `out`.
pub fn rom_window(
    execution: &Guarded,
    bootstrap: &Guarded,
    address: u64,
    out: &mut Guarded,
) -> Result<u64, String> {
    let out_bytes = out.len();
    // SAFETY: each pointer and length are those of one live buffer; `out` is
    // a buffer of its own that no other reference looks into.
    let length = unsafe {
        lavushmir_test_rom_window(
            execution.content().as_ptr(),
            execution.len(),
            bootstrap.content().as_ptr(),
            bootstrap.len(),
            address,
            out.content_mut().as_mut_ptr(),
            out_bytes,
        )
    };
    let wrong = execution.touched().or_else(|| bootstrap.touched()).or_else(|| out.guards_hurt());
    unless(wrong, length)
}
