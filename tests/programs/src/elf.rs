//! What a compiled program puts into memory.

const LOAD: u32 = 1;

pub struct Segment {
    pub address: u32,
    pub bytes: Vec<u8>,
}

fn half(file: &[u8], at: usize) -> usize {
    u16::from_le_bytes([file[at], file[at + 1]]).into()
}

fn word(file: &[u8], at: usize) -> u32 {
    u32::from_le_bytes([file[at], file[at + 1], file[at + 2], file[at + 3]])
}

/// The segments of a little-endian 32-bit ELF file, with the zeros behind what
/// the file holds of them.
pub fn segments(file: &[u8]) -> Vec<Segment> {
    assert_eq!(file[..6], *b"\x7FELF\x01\x01", "a little-endian 32-bit ELF file");
    let (headers, size, count) = (word(file, 28) as usize, half(file, 42), half(file, 44));
    (0..count)
        .map(|number| &file[headers + number * size..])
        .filter(|header| word(header, 0) == LOAD)
        .map(|header| {
            let (from, held) = (word(header, 4) as usize, word(header, 16) as usize);
            let mut bytes = file[from..from + held].to_vec();
            bytes.resize(word(header, 20) as usize, 0);
            Segment { address: word(header, 8), bytes }
        })
        .collect()
}
