//! The seven buffers that a station lends, each between guard bytes.

use crate::guarded::Guarded;

/// The index, as a reset leaves it, for RAM of so many bytes.
pub fn empty_index(ram_bytes: usize) -> Vec<u8> {
    vec![0; ram_bytes / 4_096 * 16]
}

pub struct Lent {
    pub image: Guarded,
    pub execution: Guarded,
    pub bootstrap: Guarded,
    pub ram: Guarded,
    pub paper: Guarded,
    pub journal: Guarded,
    pub index: Guarded,
}

/// As a call is given them.
pub struct Slices<'a> {
    pub image: &'a mut [u8],
    pub execution: &'a [u8],
    pub bootstrap: &'a [u8],
    pub ram: &'a mut [u8],
    pub paper: &'a mut [u8],
    pub journal: &'a mut [u8],
    pub index: &'a mut [u8],
}

impl Lent {
    pub fn slices(&mut self) -> Slices<'_> {
        Slices {
            image: self.image.content_mut(),
            execution: self.execution.content(),
            bootstrap: self.bootstrap.content(),
            ram: self.ram.content_mut(),
            paper: self.paper.content_mut(),
            journal: self.journal.content_mut(),
            index: self.index.content_mut(),
        }
    }

    /// What is wrong after a call, which may write all but the ROMs; or None.
    pub fn wrong(&self) -> Option<String> {
        let found = [
            ("execution ROM", self.execution.touched()),
            ("bootstrap ROM", self.bootstrap.touched()),
            ("image", self.image.guards_hurt()),
            ("RAM", self.ram.guards_hurt()),
            ("paper", self.paper.guards_hurt()),
            ("journal", self.journal.guards_hurt()),
            ("index", self.index.guards_hurt()),
        ];
        found.into_iter().find_map(|(name, wrong)| wrong.map(|what| format!("{name}: {what}")))
    }

    /// What is wrong after a call that must not write at all, or None.
    pub fn touched(&self) -> Option<String> {
        let all = [&self.image, &self.ram, &self.paper, &self.journal, &self.index];
        self.wrong().or_else(|| all.iter().find_map(|buffer| buffer.touched()))
    }
}
