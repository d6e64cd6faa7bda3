//! What is asked of both sides here alone, and what is changed on both by hand.

use crate::guarded::Guarded;
use crate::lending;
use crate::report::hex;
use crate::sides::{Buffers, Sides};
use reference::diskless::last_write;
use reference::{decode, encode, Answer, Machine};

impl Sides {
    /// The question, with what the answer's buffer holds before; the answer and
    /// what the buffer holds then.
    pub fn last_write(
        &mut self,
        address: u64,
        content: &[u8],
    ) -> Result<(Answer, Vec<u8>), Vec<String>> {
        let mut ours = Guarded::new(content);
        let packed = lending::last_write(&mut self.lent, address, ours.content_mut());
        let Buffers { image, ram, paper, journal, index } = &self.theirs;
        let mut theirs = content.to_vec();
        let answer = last_write(image, ram, paper, journal, index, address, &mut theirs);
        let mut lines = self.compared(packed, answer).err().unwrap_or_default();
        lines.extend(ours.guards_hurt());
        if ours.content() != theirs {
            lines.push(format!("archive's answer:   {}", hex(ours.content())));
            lines.push(format!("reference's answer: {}", hex(&theirs)));
        }
        if lines.is_empty() {
            Ok((answer, theirs))
        } else {
            lines.push(format!("who last wrote {address:#x}?"));
            Err(lines)
        }
    }

    pub fn change(&mut self, change: impl FnOnce(&mut Machine)) {
        let mut machine = decode(&self.theirs.image);
        change(&mut machine);
        encode(&machine, &mut self.theirs.image);
        self.lent.image.content_mut().copy_from_slice(&self.theirs.image);
    }

    pub fn set_index(&mut self, place: usize, bytes: &[u8]) {
        self.theirs.index[place..place + bytes.len()].copy_from_slice(bytes);
        self.lent.index.content_mut()[place..place + bytes.len()].copy_from_slice(bytes);
    }
}
