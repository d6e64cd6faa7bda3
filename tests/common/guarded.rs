//! A buffer between guard bytes. A call that writes beside what it was lent,
//! or into what it was lent for reading, is noticed after the call.

/// Not a multiple of 2: a lent buffer needs no alignment.
const GUARD_BYTES: usize = 61;

pub struct Guarded {
    bytes: Vec<u8>,
    /// All bytes, guards included, as they were made.
    made: Vec<u8>,
}

impl Guarded {
    pub fn new(content: &[u8]) -> Guarded {
        let mut bytes: Vec<u8> = (0..GUARD_BYTES as u8).map(|place| place ^ 0xC3).collect();
        bytes.extend_from_slice(content);
        bytes.extend((0..GUARD_BYTES as u8).map(|place| place ^ 0x5A));
        Guarded { made: bytes.clone(), bytes }
    }

    pub fn len(&self) -> usize {
        self.bytes.len() - 2 * GUARD_BYTES
    }

    /// To be lent for reading, too; whether it was written all the same is asked
    /// of `touched`.
    pub fn content(&self) -> &[u8] {
        &self.bytes[GUARD_BYTES..][..self.len()]
    }

    /// To be lent for writing; what was written beside it is asked of
    /// `guards_hurt`.
    pub fn content_mut(&mut self) -> &mut [u8] {
        let length = self.len();
        &mut self.bytes[GUARD_BYTES..][..length]
    }

    /// What is wrong after a call that may write the content, or None.
    pub fn guards_hurt(&self) -> Option<String> {
        let behind = self.bytes.len() - GUARD_BYTES;
        if self.bytes[..GUARD_BYTES] != self.made[..GUARD_BYTES] {
            Some("bytes before a lent buffer were written".to_string())
        } else if self.bytes[behind..] != self.made[behind..] {
            Some("bytes behind a lent buffer were written".to_string())
        } else {
            None
        }
    }

    /// What is wrong after a call that must not write at all, or None.
    pub fn touched(&self) -> Option<String> {
        if self.bytes == self.made {
            return None;
        }
        self.guards_hurt().or_else(|| {
            let place = self.bytes.iter().zip(&self.made).position(|(now, was)| now != was)?;
            Some(format!("byte {} of a buffer lent for reading was written", place - GUARD_BYTES))
        })
    }
}
