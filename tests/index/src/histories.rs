//! Random histories of resets, runs, take-backs and questions, some of them with
//! an index, records or counts that nobody has kept.

use crate::call::Call;
use crate::dice::Dice;
use crate::entry::{ENTRY_BYTES, FRAME};
use crate::history::{clock, Checked, History};
use crate::met::Met;
use crate::pool::Pool;
use crate::program::{places, rom};
use reference::diskless::reset;
use reference::layout::RECORD_BYTES;
use reference::IMAGE_BYTES;

pub const LONGEST: usize = 32_768;
pub const MOST_FRAMES: usize = 4_096;

const STOPS: [u64; 3] = [1, 1 << 32, u64::MAX];

/// Long journals and wide RAM are costly, so that they are rare.
#[derive(Clone, Copy, PartialEq, Eq)]
pub enum Size {
    Usual,
    Long,
    Wide,
}

impl Size {
    pub fn of(number: u64) -> Size {
        match number % 1_000 {
            249 | 749 => Size::Long,
            999 => Size::Wide,
            _ => Size::Usual,
        }
    }
}

/// Small values in RAM, any bytes in paper, journal and index.
fn scene(dice: &mut Dice, pool: &Pool, slots: usize, frames: usize) -> Call {
    let mut image = vec![0; IMAGE_BYTES];
    let delay = dice.between(1, 5).into();
    reset(&mut image, &mut [0; ENTRY_BYTES], 1, delay, 0xFF);
    let mut ram = vec![0; FRAME * frames];
    for place in places(frames) {
        ram[place as usize] = dice.below(3) as u8;
    }
    Call {
        image,
        execution: vec![0; 4],
        bootstrap: rom(dice, frames, slots == LONGEST),
        ram,
        paper: pool.bytes(dice, 64),
        journal: pool.bytes(dice, RECORD_BYTES * slots),
        index: pool.bytes(dice, ENTRY_BYTES * frames),
        budget: 0,
        stop: 0,
    }
}

fn budget(dice: &mut Dice, size: Size, slots: usize) -> u64 {
    let slots = slots as u32;
    u64::from(match size {
        Size::Long => match dice.below(4) {
            0 => slots + dice.between(0, 2_000),
            1 => slots - dice.between(0, 2),
            2 => dice.between(1, 40),
            _ => dice.between(1, slots),
        },
        Size::Wide => dice.between(1, 10),
        Size::Usual => match dice.below(8) {
            0 => dice.below(2),
            1 => slots,
            2 => slots + 1,
            3 => dice.between(2, 4),
            _ => dice.between(5, 40),
        },
    })
}

fn steps_back(dice: &mut Dice, on_hand: u32) -> u64 {
    match dice.below(10) {
        0 => u64::from(on_hand) + 1,
        1 => u64::from(on_hand) | 1 << dice.between(32, 63),
        2 | 3 => on_hand.into(),
        4 => on_hand.min(1).into(),
        5 => on_hand.saturating_sub(1).into(),
        _ => dice.between(0, on_hand).into(),
    }
}

impl History<'_> {
    /// As a host may find it: no reset, and the index anything.
    fn found(&mut self, dice: &mut Dice) {
        let slots = self.slots as u32;
        let next_slot = if slots == 0 { 0 } else { dice.below(slots) };
        let clock = clock(dice, self.slots);
        self.sides.change(|machine| {
            machine.next_slot = next_slot;
            machine.clock = clock;
        });
        self.begin();
        self.met.found += 1;
        self.spoil_index(dice);
        if dice.chance(2) {
            self.forge(dice);
        }
    }

    fn act(&mut self, dice: &mut Dice, size: Size, spoils: bool) -> Checked {
        if spoils && dice.chance(3) {
            self.spoil_beside_clocks(dice);
        }
        match dice.below(20) {
            0 => self.reset(dice)?,
            1 | 2 if spoils => self.spoil_index(dice),
            3 | 4 if spoils => self.forge(dice),
            5..=9 => {
                let steps = steps_back(dice, self.on_hand());
                self.take_back(steps)?;
            }
            10 | 11 if self.known => self.go_and_look(dice)?,
            _ => {
                let stop = if dice.chance(6) { dice.pick(&STOPS) } else { 0 };
                self.run(budget(dice, size, self.slots), stop)?;
            }
        }
        let questions = if size == Size::Usual { dice.below(4) } else { 2 };
        for _ in 0..questions {
            self.ask(dice)?;
        }
        Ok(())
    }
}

pub fn one(dice: &mut Dice, pool: &Pool, size: Size, met: &mut Met) -> Checked {
    let (slots, frames) = match size {
        Size::Long => (LONGEST, dice.pick(&[2, 3])),
        Size::Wide => (dice.pick(&[3, 17]), MOST_FRAMES),
        Size::Usual => {
            (dice.pick(&[0, 1, 2, 2, 3, 3, 17, 17, 17, 17]), dice.pick(&[1, 2, 3, 3, 4]))
        }
    };
    met.began(slots, frames);
    let call = scene(dice, pool, slots, frames);
    let mut history = History::new(call, met);
    let spoils = dice.chance(3);
    if spoils && dice.chance(2) {
        history.found(dice);
    } else {
        history.reset(dice)?;
    }
    let calls = match size {
        Size::Usual => dice.between(3, 9),
        Size::Long => 6,
        Size::Wide => 3,
    };
    for _ in 0..calls {
        history.act(dice, size, spoils)?;
    }
    Ok(())
}
