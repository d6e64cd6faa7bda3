//! Who last wrote a word of RAM (request L6), found in the records. The index
//! tells of whole frames only, and may be any bytes: it is not looked at.

use crate::answer::{Answer, NO_REASON};
use crate::give_back::Lengths;
use crate::image::decode;
use crate::machine::Machine;
use crate::memory::RAM_BASE;
use crate::places::places;
use crate::sizes::{disks_fit, index_fits};
use crate::take_back::{newest_first, take_back_refusal, well_formed};

/// Clock high, clock low, old word, new word; all 0 where no step is found.
pub const LAST_WRITE_BYTES: usize = 16;

/// Which step it was, 1 for the newest, and what it made of the word.
struct Write {
    steps: u32,
    old: u32,
    new: u32,
}

/// Tells the latest step on hand that altered the word at a physical address: as
/// steps, how many have to be taken back to stand before it.
#[allow(clippy::too_many_arguments)]
pub fn last_write(
    image: &[u8],
    ram: &[u8],
    paper: &[u8],
    journal: &[u8],
    index: &[u8],
    disks: [&[u8]; 8],
    address: u64,
    answer: &mut [u8],
) -> Answer {
    let lengths = Lengths::of(ram, paper, journal, disks.map(<[u8]>::len));
    // Without steps to take back row 7 can not arise.
    let refusal = take_back_refusal(image, &lengths, 0);
    if refusal != 0 {
        return Answer::refused(refusal);
    }
    let now = decode(image);
    if !well_formed(&now, &lengths, journal, now.on_hand) {
        return Answer::refused(8);
    }
    if !index_fits(index.len(), ram.len()) {
        return Answer::refused(10);
    }
    let place = match place(address, ram.len()) {
        Some(place) => place,
        None => return Answer::refused(11),
    };
    if answer.len() != LAST_WRITE_BYTES {
        return Answer::refused(12);
    }
    if !disks_fit(&now, lengths.disks) {
        return Answer::refused(13);
    }
    let found = found(&now, ram, journal, place);
    answer.copy_from_slice(&found.as_ref().map_or([0; LAST_WRITE_BYTES], |it| told(&now, it)));
    Answer::done(NO_REASON, found.map_or(0, |write| write.steps))
}

/// Of a whole word in RAM, counted from RAM's start.
fn place(address: u64, ram_len: usize) -> Option<usize> {
    let place = address.checked_sub(RAM_BASE.into())?;
    (place < ram_len as u64 && place % 4 == 0).then_some(place as usize)
}

/// Goes back from the word that RAM holds now. A record has the word before its
/// step, so that the two tell whether the step altered it. Where store and disks
/// have one place and a record that no step has written gives them several words,
/// the one given back last was there before.
fn found(now: &Machine, ram: &[u8], journal: &[u8], place: usize) -> Option<Write> {
    let new = u32::from_le_bytes(ram[place..place + 4].try_into().expect("four bytes"));
    (1..).zip(newest_first(journal, now.next_slot, now.on_hand)).find_map(|(steps, record)| {
        let old = places(record).filter(|it| it.at as usize == place).last()?.old;
        (old != new).then_some(Write { steps, old, new })
    })
}

fn told(now: &Machine, write: &Write) -> [u8; LAST_WRITE_BYTES] {
    let clock = now.clock.wrapping_sub(u64::from(write.steps) - 1);
    let mut bytes = [0; LAST_WRITE_BYTES];
    bytes[..8].copy_from_slice(&clock.to_be_bytes());
    bytes[8..12].copy_from_slice(&write.old.to_be_bytes());
    bytes[12..].copy_from_slice(&write.new.to_be_bytes());
    bytes
}
