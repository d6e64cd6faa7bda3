//! What the machine was after each step, and the answers that follow.

use crate::archive::Change;
use crate::program::PLACES;
use reference::decode;

/// As it stood between two steps.
#[derive(Clone, Copy, PartialEq, Eq, Debug)]
pub struct Moment {
    pub pc: u32,
    /// The words of RAM at `PLACES`.
    pub words: [u32; PLACES.len()],
}

impl Moment {
    pub fn of(image: &[u8], ram: &[u8]) -> Moment {
        let word = |place: u32| {
            let bytes = &ram[place as usize..][..4];
            u32::from_le_bytes(bytes.try_into().expect("four bytes"))
        };
        Moment { pc: decode(image).pc, words: PLACES.map(word) }
    }
}

/// From the reset on, the last one is now. Steps that were taken back are out.
pub struct Past {
    pub moments: Vec<Moment>,
    pub on_hand: usize,
}

impl Past {
    /// `k` steps ago.
    fn ago(&self, k: usize) -> &Moment {
        &self.moments[self.moments.len() - 1 - k]
    }

    pub fn last_change(&self, which: usize) -> Change {
        (1..=self.on_hand).find_map(|k| {
            let (old, new) = (self.ago(k).words[which], self.ago(k - 1).words[which]);
            (old != new).then_some((k as u32, old, new))
        })
    }

    pub fn newest_at(&self, pc: u32) -> Option<u32> {
        (1..=self.on_hand).find(|&k| self.ago(k).pc == pc).map(|k| k as u32)
    }

    pub fn oldest_at(&self, pc: u32) -> Option<u32> {
        (1..=self.on_hand).rev().find(|&k| self.ago(k).pc == pc).map(|k| k as u32)
    }
}
