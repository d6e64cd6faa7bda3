//! A machine with a program in it, on one side: its image and its buffers.

use crate::dice::Dice;
use crate::elf::Segment;
use crate::mode::{Setting, FRAMES, PROGRAM_FRAMES};
use reference::layout::RECORD_BYTES;
use reference::{decode, Machine, IMAGE_BYTES};

pub const RAM: u32 = 0x2000_0000;
pub const FRAME: usize = 4096;
const PAPER: usize = 65_536;

// The mailbox, as in machine/mailbox.h.
const STATUS_WORD: usize = 0;
const PERIOD_WORD: usize = 4;
const TICKS_WORD: usize = 8;
const FLIP_WORD: usize = 12;
const MISSES_WORD: usize = 16;
const NEXT_PERIOD_WORD: usize = 28;
const FLUSHED_WORD: usize = 32;
const FORGET_WORD: usize = 36;

/// Both ROMs, lent for reading.
pub struct Roms {
    pub execution: Vec<u8>,
    pub bootstrap: Vec<u8>,
}

#[derive(Clone)]
pub struct Station {
    pub image: Vec<u8>,
    pub ram: Vec<u8>,
    pub paper: Vec<u8>,
    pub journal: Vec<u8>,
    pub index: Vec<u8>,
}

impl Station {
    /// RAM, paper, journal and index hold anything where nothing was laid.
    pub fn new(segments: &[Segment], setting: &Setting, slots: usize, dice: &mut Dice) -> Station {
        let mut station = Station {
            image: dice.bytes(IMAGE_BYTES),
            ram: dice.bytes(FRAMES as usize * FRAME),
            paper: dice.bytes(PAPER),
            journal: dice.bytes(RECORD_BYTES * slots),
            index: dice.bytes(16 * FRAMES as usize),
        };
        station.ram[..FRAME].fill(0);
        station.set_word(STATUS_WORD, setting.status);
        station.set_word(NEXT_PERIOD_WORD, setting.next_period);
        station.set_word(FLIP_WORD, setting.page_flip);
        station.set_word(FLUSHED_WORD, setting.flushed);
        station.set_word(FORGET_WORD, setting.forget);
        station.set_period(setting.period);
        for segment in segments {
            station.lay(segment, setting.page_flip);
        }
        station
    }

    fn lay(&mut self, segment: &Segment, flip: u32) {
        let end = segment.address as usize + segment.bytes.len();
        assert!(end <= RAM as usize + PROGRAM_FRAMES as usize * FRAME, "a program too large");
        for (address, byte) in (segment.address..).zip(&segment.bytes) {
            self.ram[place(address, flip)] = *byte;
        }
    }

    pub fn set_period(&mut self, period: u32) {
        self.set_word(PERIOD_WORD, period);
    }

    fn set_word(&mut self, at: usize, value: u32) {
        self.ram[at..at + 4].copy_from_slice(&value.to_le_bytes());
    }

    fn word(&self, at: usize) -> u32 {
        let bytes = &self.ram[at..at + 4];
        u32::from_le_bytes([bytes[0], bytes[1], bytes[2], bytes[3]])
    }

    pub fn ticks(&self) -> u32 {
        self.word(TICKS_WORD)
    }

    pub fn misses(&self) -> u32 {
        self.word(MISSES_WORD)
    }

    pub fn machine(&self) -> Machine {
        decode(&self.image)
    }

    /// Bytes at a program's address, or None beyond RAM.
    pub fn bytes(&self, address: u32, count: u32) -> Option<Vec<u8>> {
        let flip = self.word(FLIP_WORD);
        (0..count).map(|at| self.ram.get(place(address.wrapping_add(at), flip)).copied()).collect()
    }

    /// The first part that is not equal, or None.
    pub fn differs_from(&self, other: &Station) -> Option<String> {
        let parts = [
            ("image", &self.image, &other.image),
            ("RAM", &self.ram, &other.ram),
            ("paper", &self.paper, &other.paper),
            ("journal", &self.journal, &other.journal),
            ("index", &self.index, &other.index),
        ];
        let (name, ours, theirs) = parts.iter().find(|(_, ours, theirs)| ours != theirs)?;
        let at = ours.iter().zip(theirs.iter()).position(|(our, their)| our != their)?;
        Some(format!("byte {at} of {name}: {:#04x}, not {:#04x}", ours[at], theirs[at]))
    }
}

/// The place in RAM of a program's address.
fn place(address: u32, flip: u32) -> usize {
    (address ^ flip).wrapping_sub(RAM) as usize
}
