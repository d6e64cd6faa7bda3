//! One random history of runs and take-backs, made by the reference with its
//! records, and beside it every moment from stepping it one by one.

use crate::archive::Mark;
use crate::dice::Dice;
use crate::past::{Moment, Past};
use crate::program::{rom, PLACES};
use reference::diskless::{reset, run, run_with_records, take_back};
use reference::{decode, IMAGE_BYTES};

const RAM_BYTES: usize = 4_096;
const RECORD_BYTES: usize = 512;
const INDEX_BYTES: usize = 16;

pub struct History {
    pub slots: usize,
    pub image: Vec<u8>,
    pub rom: Vec<u8>,
    pub ram: Vec<u8>,
    pub paper: Vec<u8>,
    pub journal: Vec<u8>,
    pub index: Vec<u8>,
    pub past: Past,
    pub taken_back: bool,
}

impl History {
    /// After a reset, with any bytes in the journal and small values in RAM.
    pub fn new(dice: &mut Dice, slots: usize) -> History {
        let (mut image, mut index) = (vec![0; IMAGE_BYTES], vec![0; INDEX_BYTES]);
        let answer = reset(&mut image, &mut index, 1, 10, 1);
        assert_eq!(answer.number, 0, "the reset was refused");
        let mut ram = vec![0; RAM_BYTES];
        for place in PLACES {
            ram[place as usize] = dice.below(3) as u8;
        }
        let past = Past { moments: vec![Moment::of(&image, &ram)], on_hand: 0 };
        let journal = dice.bytes(slots * RECORD_BYTES);
        History {
            slots,
            image,
            rom: rom(dice),
            ram,
            paper: vec![0; 64],
            journal,
            index,
            past,
            taken_back: false,
        }
    }

    pub fn mark(&self) -> Mark {
        let machine = decode(&self.image);
        assert_eq!(machine.on_hand as usize, self.past.on_hand, "steps on hand");
        Mark { on_hand: machine.on_hand, next_slot: machine.next_slot }
    }

    /// Steps copies to see each moment; then the run itself, in one call.
    pub fn run(&mut self, steps: u64) {
        let (mut image, mut ram, mut paper) =
            (self.image.clone(), self.ram.clone(), self.paper.clone());
        let mut journal = self.journal.clone();
        for _ in 0..steps {
            run(&mut image, &self.rom, &self.rom, &mut ram, &mut paper, &mut journal, 1, 0);
            self.past.moments.push(Moment::of(&image, &ram));
        }
        let answer = run_with_records(
            &mut self.image,
            &self.rom,
            &self.rom,
            &mut self.ram,
            &mut self.paper,
            &mut self.journal,
            &mut self.index,
            steps,
            0,
        );
        assert_eq!((answer.number, u64::from(answer.steps)), (0, steps), "the run");
        assert_eq!(self.ram, ram, "RAM after the run");
        self.past.on_hand = self.slots.min(self.past.on_hand + steps as usize);
    }

    pub fn take_back(&mut self, steps: usize) {
        let History { image, ram, paper, journal, index, .. } = self;
        let answer = take_back(image, ram, paper, journal, index, steps as u64);
        assert_eq!(answer.number, 0, "the take-back was refused");
        let left = self.past.moments.len() - steps;
        self.past.moments.truncate(left);
        self.past.on_hand -= steps;
        self.taken_back |= steps > 0;
        let now = Moment::of(&self.image, &self.ram);
        assert_eq!(self.past.moments.last(), Some(&now), "the moment taken back to");
    }
}
