//! The index with several places in one step: the tests' own, with a fault.

use crate::faults::Fault::{self, *};
use crate::model_record::{distance_of, how, set_distance};
use crate::record::*;
use crate::world::World;

/// A place in RAM that a record tells of.
pub struct Place {
    pub at: usize,
    pub old: u32,
    pub distance: u32,
    /// None for the store's.
    pub disk: Option<usize>,
}

/// The store's, then those of disks 7 to 0. The record may be any bytes.
pub fn places(record: &[u8]) -> Vec<Place> {
    let mut found = Vec::new();
    if word(record, KIND) == RAM_WORD {
        let (at, old) = (word(record, WHICH) as usize, word(record, OLD));
        found.push(Place { at, old, distance: word(record, DISTANCE), disk: None });
    }
    for number in (0..8).rev().filter(|number| how(record, *number) == READ) {
        found.push(Place {
            at: word(record, disk(number, PLACE)) as usize,
            old: word(record, disk(number, BYTES)),
            distance: distance_of(record, number),
            disk: Some(number),
        });
    }
    found
}

fn entry(index: &mut [u8], place: usize) -> Option<&mut [u8]> {
    index.get_mut(place / 4_096 * 16..)?.get_mut(..16)
}

fn named(entry: &[u8]) -> Option<u64> {
    let clock = u64::from_be_bytes(entry[4..12].try_into().expect("eight bytes"));
    (entry[..4] == [0, 0, 0, 1]).then_some(clock)
}

fn name(entry: &mut [u8], clock: Option<u64>) {
    entry.fill(0);
    if let Some(clock) = clock {
        entry[3] = 1;
        entry[4..12].copy_from_slice(&clock.to_be_bytes());
    }
}

/// A full journal drops a record, of the step that had the clock `gone`.
pub fn drop_oldest(fault: Fault, index: &mut [u8], record: &[u8], gone: u64) {
    for place in places(record) {
        if place.disk.is_some() && fault == DropsForgetReads {
            continue;
        }
        if let Some(entry) = entry(index, place.at) {
            if named(entry) == Some(gone) {
                name(entry, None);
            }
        }
    }
}

/// A step has been taken at `clock`, with so many on hand below it.
pub fn note(fault: Fault, world: &mut World, record: &mut [u8], clock: u64, below: u64) {
    let all = places(record);
    for place in &all {
        let entry = entry(&mut world.index, place.at).expect("a frame's");
        let far = named(entry).map_or(0, |before| clock.wrapping_sub(before));
        let kept = if far <= below { far as u32 } else { 0 };
        match place.disk {
            None => set(record, DISTANCE, kept),
            Some(_) if fault == ReadsHaveNoDistance => {}
            Some(number) if fault == DistancesTurned => set_distance(record, number ^ 1, kept),
            Some(number) => set_distance(record, number, kept),
        }
        if fault == DistancesBehindTheMarks {
            mark(fault, world, place, clock);
        }
    }
    for place in &all {
        mark(fault, world, place, clock);
    }
}

fn mark(fault: Fault, world: &mut World, place: &Place, clock: u64) {
    let differs = world.ram_word(place.at) != place.old;
    let marked = match fault {
        ReadsMarkNoFrame => differs && place.disk.is_none(),
        EqualReadsMarkFrames => differs || place.disk.is_some(),
        StoresAloneAreLookedAt if place.disk.is_none() => true,
        OnlyTheFirstFrameIsMarked => differs && place.at < 4_096,
        _ => differs,
    };
    if marked {
        name(entry(&mut world.index, place.at).expect("a frame's"), Some(clock));
    }
}

/// The step of a record is taken back, with so many on hand below it.
pub fn forget(fault: Fault, index: &mut [u8], record: &[u8], clock: u64, below: u32) {
    let mut all = places(record);
    if fault == IndexGoesBackByTheLowestDisk {
        all.reverse();
    }
    for place in all {
        if place.disk.is_some() && fault == BackForgetsReadsInTheIndex {
            continue;
        }
        // A fault may have let a place outside RAM pass.
        let Some(entry) = entry(index, place.at) else { continue };
        if named(entry) == Some(clock) {
            let near = (1..=below).contains(&place.distance);
            let before = clock.wrapping_sub(place.distance.into());
            name(entry, near.then_some(before));
        }
    }
}
