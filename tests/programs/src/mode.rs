//! The ways in which a program is run. None of them shows in its output.

use crate::dice::Dice;

#[derive(Clone, Copy, PartialEq, Eq, Debug)]
pub enum Mode {
    /// In kernel mode, without translation or interrupts.
    Plain,
    /// In user mode, with timer interrupts.
    User,
    /// Translated in kernel mode, with timer interrupts and TLB misses.
    Paged,
}

pub const MODES: [Mode; 3] = [Mode::Plain, Mode::User, Mode::Paged];

/// What the ROMs find in the mailbox; machine/mailbox.h says what each is for.
pub struct Setting {
    pub status: u32,
    pub period: u32,
    pub next_period: u32,
    pub page_flip: u32,
    pub flushed: u32,
    pub forget: u32,
}

impl Setting {
    /// A tick every so many steps, which throws one entry out of the table.
    fn every(period: u32, status: u32, page_flip: u32) -> Setting {
        Setting { status, period, next_period: period, page_flip, flushed: 0, forget: 0 }
    }
}

/// RAM's frames, a power of 2: a flip of a frame's number stays within them.
pub const FRAMES: u32 = 64;

/// More frames than any program has; a flip by so much keeps clear of the mailbox.
pub const PROGRAM_FRAMES: u32 = FRAMES / 2;

/// Longer than the ROM takes for a tick, or the program would never go on.
const SHORTEST_PERIOD: u32 = 80;

/// Longer than it takes for a tick and the misses that follow.
const SHORTEST_PAGED_PERIOD: u32 = 300;

impl Mode {
    pub fn name(self) -> &'static str {
        match self {
            Mode::Plain => "plain",
            Mode::User => "user, timer",
            Mode::Paged => "paged, timer",
        }
    }

    /// The previous mode is the program's: IEp is bit 2, KUp bit 3, VMp bit 25;
    /// IM[2] is bit 10, CU[0] bit 28.
    pub fn setting(self, dice: &mut Dice) -> Setting {
        match self {
            Mode::Plain => Setting::every(u32::MAX, 0x1000_0000, 0),
            Mode::User => {
                let period = dice.between(SHORTEST_PERIOD, 4 * SHORTEST_PERIOD);
                Setting::every(period, 0x0000_040C, 0)
            }
            Mode::Paged => {
                let period = dice.between(SHORTEST_PAGED_PERIOD, 4 * SHORTEST_PAGED_PERIOD);
                let flip = dice.between(PROGRAM_FRAMES, FRAMES - 1);
                Setting::every(period, 0x0200_0404, flip << 12)
            }
        }
    }
}
