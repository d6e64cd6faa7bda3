//! The archive's reader, on a slice between guard bytes.

use crate::guarded::Guarded;
use crate::lines::Heard;

extern "C" {
    fn heard_line(line: *const u8, length: usize, answer: *mut u64);
}

/// A word before and behind the eleven.
const GUARD: u64 = 0xC35A_C35A_0F0F_F0F0;

pub fn heard(line: &[u8]) -> Heard {
    let lent = Guarded::new(line);
    let mut words = [GUARD; 13];
    // SAFETY: pointer and length are those of one live slice; the answer has
    // room for eleven words.
    unsafe { heard_line(lent.content().as_ptr(), lent.len(), words[1..].as_mut_ptr()) }
    assert_eq!(lent.touched(), None, "the line");
    assert_eq!((words[0], words[12]), (GUARD, GUARD), "words beside the answer were written");
    words[1..12].try_into().expect("eleven words")
}
