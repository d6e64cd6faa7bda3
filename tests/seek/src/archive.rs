//! The archive's exports for tests, on slices.

extern "C" {
    fn sought_last_change(
        ram: *const u8,
        ram_bytes: usize,
        journal: *const u8,
        journal_bytes: usize,
        on_hand: u32,
        next_slot: u32,
        place: u32,
        out: *mut u32,
    );

    fn sought_newest_at(
        journal: *const u8,
        journal_bytes: usize,
        on_hand: u32,
        next_slot: u32,
        pc: u32,
    ) -> u32;

    fn sought_oldest_at(
        journal: *const u8,
        journal_bytes: usize,
        on_hand: u32,
        next_slot: u32,
        pc: u32,
    ) -> u32;
}

/// The image's two words for the journal, or any two numbers.
#[derive(Clone, Copy, Debug)]
pub struct Mark {
    pub on_hand: u32,
    pub next_slot: u32,
}

/// A step on hand, 1 being the newest, with the word before and after it.
pub type Change = Option<(u32, u32, u32)>;

pub fn last_change(ram: &[u8], journal: &[u8], mark: Mark, place: u32) -> Change {
    let mut out = [u32::MAX; 3];
    // SAFETY: each pointer and length are those of one live slice; `out` is an
    // array of three, as the call wants it.
    unsafe {
        sought_last_change(
            ram.as_ptr(),
            ram.len(),
            journal.as_ptr(),
            journal.len(),
            mark.on_hand,
            mark.next_slot,
            place,
            out.as_mut_ptr(),
        )
    }
    match out {
        [0, 0, 0] => None,
        [step, old, new] => Some((step, old, new)),
    }
}

fn step(number: u32) -> Option<u32> {
    Some(number).filter(|&number| number != 0)
}

pub fn newest_at(journal: &[u8], mark: Mark, pc: u32) -> Option<u32> {
    // SAFETY: pointer and length are those of one live slice.
    step(unsafe {
        sought_newest_at(journal.as_ptr(), journal.len(), mark.on_hand, mark.next_slot, pc)
    })
}

pub fn oldest_at(journal: &[u8], mark: Mark, pc: u32) -> Option<u32> {
    // SAFETY: as above.
    step(unsafe {
        sought_oldest_at(journal.as_ptr(), journal.len(), mark.on_hand, mark.next_slot, pc)
    })
}
