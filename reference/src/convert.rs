//! Conversion of an image of the version before (requests L2 and L4).

use crate::answer::{Answer, NO_REASON};
use crate::image::{decode_old, encode, IMAGE_BYTES};
use crate::machine::Machine;
use crate::rules::old_keeps_rules;
use crate::sizes::{old_journal_fits, paper_fits};

/// Writes `image`, the present version of `old`: without disks, and with no steps
/// on hand, since the records of old steps have another layout and length; next
/// slot would be behind the journal's end, where it can be half as far. Nothing
/// else is written. `journal` is judged as the old one, in old slots.
pub fn convert(old: &[u8], image: &mut [u8], paper: &[u8], journal: &[u8]) -> Answer {
    let refusal = convert_refusal(old, image.len(), paper.len(), journal.len());
    if refusal != 0 {
        return Answer::refused(refusal);
    }
    let machine = Machine { on_hand: 0, next_slot: 0, ..decode_old(old) };
    encode(&machine, image);
    Answer::done(NO_REASON, 0)
}

fn convert_refusal(old: &[u8], image_len: usize, paper_len: usize, journal_len: usize) -> u8 {
    if !paper_fits(paper_len) {
        3
    } else if !old_journal_fits(journal_len) {
        4
    } else if !(old_keeps_rules(old, paper_len, journal_len) && image_len == IMAGE_BYTES) {
        5
    } else {
        0
    }
}
