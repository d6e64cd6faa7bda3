//! The index of request L6: for each frame of RAM the clock of the last step on
//! hand that changed a byte of it. It is moved on with each step and each step
//! taken back, at a cost that does not grow with the journal.
//!
//! Any bytes may be lent as an index, and what is left in it follows from them.

use crate::layout::*;
use crate::places::{places, Place};
use crate::sizes::{ENTRY_BYTES, FRAME_BYTES};

/// The four bytes of each word of an entry, as it is written: 1, clock high, clock
/// low, 0; or 0 in all.
type Bytes = [u8; ENTRY_BYTES];

fn bytes(clock: Option<u64>) -> Bytes {
    let mut entry = [0; ENTRY_BYTES];
    if let Some(clock) = clock {
        entry[..4].copy_from_slice(&1u32.to_be_bytes());
        entry[4..12].copy_from_slice(&clock.to_be_bytes());
    }
    entry
}

/// The entry of the frame that holds a place in RAM; None behind the index's end,
/// where only a record that no step has written can lead.
fn entry(index: &mut [u8], place: u32) -> Option<&mut Bytes> {
    let at = place as usize / FRAME_BYTES * ENTRY_BYTES;
    index.get_mut(at..at + ENTRY_BYTES)?.try_into().ok()
}

/// The clock that an entry of any bytes names: the first word alone says whether it
/// names one, and the fourth is not looked at.
fn named(entry: &Bytes) -> Option<u64> {
    let clock = u64::from_be_bytes(entry[4..12].try_into().expect("eight bytes"));
    (entry[..4] == 1u32.to_be_bytes()).then_some(clock)
}

/// A full journal drops its oldest record, whose step had the clock `gone`. The
/// record may be any bytes.
#[inline]
pub fn drop_oldest(index: &mut [u8], record: &Record, gone: u64) {
    if some_disk_worked(record) {
        drop_places(index, record, gone);
    } else if word(record, KIND) == RAM_WORD {
        drop_place(index, word(record, WHICH), gone);
    }
}

#[cold]
fn drop_places(index: &mut [u8], record: &Record, gone: u64) {
    places(record).for_each(|place| drop_place(index, place.at, gone));
}

#[inline]
fn drop_place(index: &mut [u8], place: u32, gone: u64) {
    match entry(index, place) {
        Some(entry) if named(entry) == Some(gone) => *entry = bytes(None),
        _ => {}
    }
}

/// A step has just been taken while no disk was at work, at `clock` behind its
/// tick, with so many steps on hand below it. Where it stored to RAM, its record
/// keeps how far back the step lies that changed the frame before, and the frame
/// names this step, if the word is another one now.
#[inline]
pub fn note_step(index: &mut [u8], record: &mut Record, ram: &[u8], clock: u64, below: u32) {
    if word(record, KIND) != RAM_WORD {
        return;
    }
    let place = word(record, WHICH);
    let entry = entry(index, place).expect("each frame of RAM has an entry");
    set_word(record, DISTANCE, kept(entry, clock, below));
    if ram[place as usize..][..4] != word(record, OLD).to_le_bytes() {
        *entry = bytes(Some(clock));
    }
}

/// The distance of an entry, before the step of `clock` is marked in it.
#[inline]
fn kept(entry: &Bytes, clock: u64, below: u32) -> u32 {
    let distance = named(entry).map_or(0, |before| clock.wrapping_sub(before));
    if distance <= below.into() {
        distance as u32
    } else {
        0
    }
}

/// The same with disks at work: every distance is kept before any frame is marked,
/// so that two places in one frame have the same.
#[cold]
pub fn note_places(index: &mut [u8], record: &mut Record, ram: &[u8], clock: u64, below: u32) {
    let mut found = places(record);
    let all: [Option<Place>; 9] = std::array::from_fn(|_| found.next());
    drop(found);
    for place in all.iter().flatten() {
        let entry = entry(index, place.at).expect("each frame of RAM has an entry");
        place.keep_distance(record, kept(entry, clock, below));
    }
    for place in all.iter().flatten() {
        if ram[place.at as usize..][..4] != place.old.to_le_bytes() {
            *entry(index, place.at).expect("each frame of RAM has an entry") = bytes(Some(clock));
        }
    }
}

/// The step of a well-formed record is about to be taken back, from `clock` and
/// with so many steps on hand below it. A frame that names it names the step
/// before again, if that one is still on hand.
///
/// A frame has one distance in every record that a step wrote. In another the first
/// place of a frame counts: behind it the frame names this step no more.
pub fn forget_step(index: &mut [u8], record: &Record, clock: u64, below: u32) {
    for place in places(record) {
        let entry = entry(index, place.at).expect("each frame of RAM has an entry");
        if named(entry) == Some(clock) {
            let before = clock.wrapping_sub(place.distance.into());
            *entry = bytes((1..=below).contains(&place.distance).then_some(before));
        }
    }
}
