//! An entry of the index, written from the readings of request L6 and not taken
//! from the reference.

pub const ENTRY_BYTES: usize = 16;
pub const FRAME: usize = 4_096;

pub fn of_words(words: [u32; 4]) -> [u8; ENTRY_BYTES] {
    let mut entry = [0; ENTRY_BYTES];
    for (four, word) in entry.chunks_exact_mut(4).zip(words) {
        four.copy_from_slice(&word.to_be_bytes());
    }
    entry
}

/// Of the step with this clock, or of none.
pub fn of(clock: Option<u64>) -> [u8; ENTRY_BYTES] {
    of_words(clock.map_or([0; 4], |clock| [1, (clock >> 32) as u32, clock as u32, 0]))
}

pub fn words(entry: &[u8]) -> [u32; 4] {
    let word = |at: usize| {
        let four = &entry[4 * at..][..4];
        u32::from_be_bytes([four[0], four[1], four[2], four[3]])
    };
    [word(0), word(1), word(2), word(3)]
}

/// The clock that an entry of any bytes names: one with 1 in front names one,
/// whatever its fourth word is.
pub fn named(entry: &[u8]) -> Option<u64> {
    match words(entry) {
        [1, high, low, _] => Some(u64::from(high) << 32 | u64::from(low)),
        _ => None,
    }
}

/// An entry that names a step, though no call has written it.
pub fn has_fourth(entry: &[u8]) -> bool {
    let [first, _, _, fourth] = words(entry);
    first == 1 && fourth != 0
}

/// The entry of the frame that holds a place in RAM; None behind the index's end.
pub fn at(index: &mut [u8], place: u32) -> Option<&mut [u8]> {
    let start = place as usize / FRAME * ENTRY_BYTES;
    index.get_mut(start..start + ENTRY_BYTES)
}
