//! Benches with disks, and what their blocks hold.
#![allow(dead_code)]

use super::asm::sw;
use super::{put_words, Bench, KERNEL, RAM};
use reference::Disk;

/// Offset of a disk's device register in the device area.
pub const fn disk(number: u32) -> u32 {
    0x50 + number * 0x10
}

pub const COMMAND: u32 = 4;
pub const DATA0: u32 = 8;
pub const DATA1: u32 = 12;

pub const RESET: u32 = 0;
pub const ACK: u32 = 1;
pub const READY: u32 = 1;
pub const BUSY: u32 = 3;

pub const fn seek(cylinder: u32) -> u32 {
    2 | cylinder << 8
}

pub const fn read(head: u32, sector: u32) -> u32 {
    3 | head << 16 | sector << 8
}

pub const fn write(head: u32, sector: u32) -> u32 {
    4 | head << 16 | sector << 8
}

pub const fn geometry(cylinders: u32, heads: u32, sectors: u32) -> u32 {
    cylinders << 16 | heads << 8 | sectors
}

/// No two words of the disks are alike.
pub fn disk_word(number: usize, word: usize) -> u32 {
    0xD000_0000 | (number as u32) << 24 | word as u32
}

impl Bench {
    /// Installs a disk, ready, with a word of its own in each place.
    pub fn disk(mut self, number: usize, data1: u32) -> Bench {
        let blocks = (data1 >> 16) * (data1 >> 8 & 0xFF) * (data1 & 0xFF);
        let words: Vec<u32> =
            (0..1_024 * blocks as usize).map(|word| disk_word(number, word)).collect();
        self.disks[number] = vec![0; 4 * words.len()];
        put_words(&mut self.disks[number], 0, &words);
        self.machine.disks_installed |= 1 << number;
        self.machine.disks[number] = Disk { status: READY, data1, ..Disk::default() };
        self
    }

    /// A bench whose first step writes a disk's register.
    pub fn storing(number: u32, field: u32, value: u32) -> Bench {
        Bench::with(&[sw(4, disk(number) + field, 8)]).register(4, value)
    }

    /// In the middle of a transfer of the block at cylinder 0, head 0, sector 0.
    pub fn moving(mut self, number: usize, code: u32, place: u32, words_left: u32) -> Bench {
        let disk = &mut self.machine.disks[number];
        *disk = Disk { status: BUSY, command: code, data0: RAM + place, words_left, ..*disk };
        self
    }

    pub fn disk_state(&self, number: usize) -> &Disk {
        &self.machine.disks[number]
    }

    pub fn on_disk(&self, number: usize, word: usize) -> u32 {
        u32::from_le_bytes(self.disks[number][4 * word..][..4].try_into().unwrap())
    }

    pub fn ip_3(&self) -> bool {
        self.machine.cause & 0x800 != 0
    }

    /// Interrupts of line 3 alone are let in.
    pub fn line_3(self) -> Bench {
        self.status(KERNEL | 0x801)
    }

    pub fn lent_disks(&self) -> [&[u8]; 8] {
        self.disks.each_ref().map(|disk| &disk[..])
    }
}
