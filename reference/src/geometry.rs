//! What the words of a disk say: geometry in DATA1, code and parameters in
//! COMMAND, and the places of a transfer (request L4).

use crate::machine::Disk;
use crate::memory::RAM_BASE;
use crate::sizes::FRAME_BYTES;

pub const RESET: u32 = 0;
pub const ACK: u32 = 1;
pub const SEEKCYL: u32 = 2;
pub const READBLK: u32 = 3;
pub const WRITEBLK: u32 = 4;

/// A block is as large as a frame.
pub const BLOCK_WORDS: u32 = 1_024;

impl Disk {
    pub(crate) fn cylinders(&self) -> u32 {
        self.data1 >> 16
    }

    fn heads(&self) -> u32 {
        self.data1 >> 8 & 0xFF
    }

    fn sectors(&self) -> u32 {
        self.data1 & 0xFF
    }

    /// The length of its buffer. A count of 0 is 0.
    pub(crate) fn bytes(&self) -> u64 {
        u64::from(self.cylinders()) * u64::from(self.heads() * self.sectors()) * FRAME_BYTES as u64
    }

    pub(crate) fn code(&self) -> u32 {
        self.command & 0xFF
    }

    pub(crate) fn cylinder_asked(&self) -> u32 {
        self.command >> 8 & 0xFFFF
    }

    fn head_asked(&self) -> u32 {
        self.command >> 16 & 0xFF
    }

    fn sector_asked(&self) -> u32 {
        self.command >> 8 & 0xFF
    }

    pub(crate) fn block_is_on_disk(&self) -> bool {
        self.cylinder < self.cylinders()
            && self.head_asked() < self.heads()
            && self.sector_asked() < self.sectors()
    }

    /// Of the 4,096 bytes from DATA0, which may lie across two frames.
    pub(crate) fn block_is_in_ram(&self, ram_len: usize) -> bool {
        self.data0 % 4 == 0
            && self.data0 >= RAM_BASE
            && (self.data0 - RAM_BASE) as usize + FRAME_BYTES <= ram_len
    }

    /// The first byte in the disk's buffer of the word that the next tick moves.
    /// More words left than a block has are in no image, only in a record.
    pub(crate) fn place_on_disk(&self) -> u64 {
        let track =
            u64::from(self.cylinder) * u64::from(self.heads()) + u64::from(self.head_asked());
        let block = track * u64::from(self.sectors()) + u64::from(self.sector_asked());
        block * FRAME_BYTES as u64 + u64::from(self.bytes_moved())
    }

    /// The same in RAM, while the disk is at work.
    pub(crate) fn place_in_ram(&self) -> usize {
        (self.data0 - RAM_BASE + self.bytes_moved()) as usize
    }

    pub(crate) fn bytes_moved(&self) -> u32 {
        4 * BLOCK_WORDS.saturating_sub(self.words_left)
    }
}
