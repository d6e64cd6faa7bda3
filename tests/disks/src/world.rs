//! All that is lent, with the reference's calls on it.

use reference::layout::RECORD_BYTES;
use reference::{decode, encode, Answer, Machine};

#[derive(Clone, Default, PartialEq, Eq)]
pub struct World {
    pub image: Vec<u8>,
    pub execution: Vec<u8>,
    pub bootstrap: Vec<u8>,
    pub ram: Vec<u8>,
    pub paper: Vec<u8>,
    pub journal: Vec<u8>,
    pub index: Vec<u8>,
    pub disks: [Vec<u8>; 8],
}

/// What a reset is given beside image and index.
#[derive(Clone, Copy, Debug)]
pub struct Numbers {
    pub time_scale: u64,
    pub delay: u64,
    pub installed: u64,
    pub disks: u64,
    pub geometry: [u64; 8],
}

fn lend(disks: &mut [Vec<u8>; 8]) -> [&mut [u8]; 8] {
    disks.each_mut().map(|disk| &mut disk[..])
}

impl World {
    pub fn machine(&self) -> Machine {
        decode(&self.image)
    }

    pub fn set_machine(&mut self, machine: &Machine) {
        encode(machine, &mut self.image);
    }

    pub fn slots(&self) -> usize {
        self.journal.len() / RECORD_BYTES
    }

    pub fn record(&self, slot: usize) -> &[u8] {
        &self.journal[RECORD_BYTES * slot..][..RECORD_BYTES]
    }

    pub fn ram_word(&self, place: usize) -> u32 {
        word(&self.ram, place)
    }

    pub fn reset(&mut self, numbers: &Numbers) -> Answer {
        let Numbers { time_scale, delay, installed, disks, geometry } = *numbers;
        let (image, index) = (&mut self.image, &mut self.index);
        reference::reset(image, index, time_scale, delay, installed, disks, geometry)
    }

    pub fn run(&mut self, budget: u64, stop: u64) -> Answer {
        let World { image, execution, bootstrap, ram, paper, journal, index, disks } = self;
        let disks = lend(disks);
        reference::run_with_records(
            image, execution, bootstrap, ram, paper, journal, index, disks, budget, stop,
        )
    }

    /// Without records, journal and index.
    pub fn run_on(&mut self, budget: u64) -> Answer {
        let World { image, execution, bootstrap, ram, paper, disks, .. } = self;
        let disks = lend(disks);
        reference::run(image, execution, bootstrap, ram, paper, &mut [], disks, budget, 0)
    }

    pub fn take_back(&mut self, steps: u64) -> Answer {
        let World { image, ram, paper, journal, index, disks, .. } = self;
        reference::take_back(image, ram, paper, journal, index, lend(disks), steps)
    }

    pub fn last_write(&self, address: u64, answer: &mut [u8]) -> Answer {
        let World { image, ram, paper, journal, index, disks, .. } = self;
        let disks = disks.each_ref().map(|disk| &disk[..]);
        reference::last_write(image, ram, paper, journal, index, disks, address, answer)
    }
}

pub fn word(bytes: &[u8], place: usize) -> u32 {
    u32::from_le_bytes(bytes[place..place + 4].try_into().expect("four bytes"))
}

pub fn set_word(bytes: &mut [u8], place: usize, value: u32) {
    bytes[place..place + 4].copy_from_slice(&value.to_le_bytes());
}
