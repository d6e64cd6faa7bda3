//! The places in RAM that a step wrote, as its record tells them: that of a store
//! and those of the words that disks read in, up to nine.

use crate::layout::*;

/// One of them, with the word that was there before the step and the distance of
/// its frame.
pub struct Place {
    pub at: u32,
    pub old: u32,
    pub distance: u32,
    /// None for the store's.
    disk: Option<usize>,
}

impl Place {
    pub fn keep_distance(&self, record: &mut Record, distance: u32) {
        match self.disk {
            None => set_word(record, DISTANCE, distance),
            Some(number) => set_distance(record, number, distance),
        }
    }
}

/// In the order in which they are given back: the store's first, then those of
/// disks 7 to 0. The record may be any bytes.
pub fn places(record: &Record) -> impl Iterator<Item = Place> + '_ {
    store_place(record).into_iter().chain((0..8).rev().filter_map(|number| {
        let part = disk_part(record, number);
        (part.how == READ_A_WORD).then(|| Place {
            at: part.place,
            old: part.bytes,
            distance: distance(record, number),
            disk: Some(number),
        })
    }))
}

fn store_place(record: &Record) -> Option<Place> {
    (word(record, KIND) == RAM_WORD).then(|| Place {
        at: word(record, WHICH),
        old: word(record, OLD),
        distance: word(record, DISTANCE),
        disk: None,
    })
}
