//! How long the lent buffers are.

use crate::dice::Dice;

#[derive(Clone, Copy)]
pub struct Lengths {
    pub ram: u32,
    pub execution: u32,
    pub bootstrap: u32,
    pub paper: u32,
    pub slots: u32,
}

const FRAME: u32 = 4_096;

/// Long buffers are costly to copy and to compare, so that they are rare.
pub fn lengths(dice: &mut Dice) -> Lengths {
    let frames = match dice.below(20_000) {
        0 => 4_096,
        1..=20 => dice.between(5, 600),
        10_000.. => 1,
        _ => dice.between(2, 4),
    };
    let slots = match dice.below(20_000) {
        0 | 1 => 32_768,
        2..=20 => dice.between(65, 2_000),
        _ => dice.pick(&[0, 1, 1, 2, 2, 3, 3, 17, 17, 64]),
    };
    let paper = match dice.below(200) {
        0 => 65_536,
        1..=20 => dice.pick(&[4_096, 4_104, 800]),
        _ => dice.pick(&[0, 8, 8, 16, 64, 64, 128]),
    };
    Lengths { ram: FRAME * frames, execution: rom(dice), bootstrap: rom(dice), paper, slots }
}

/// The vectors lie at 0 and 0x80 of one ROM, at 0x100 and 0x180 of the other:
/// some are too short for them.
fn rom(dice: &mut Dice) -> u32 {
    match dice.below(100) {
        0 => 65_536,
        1 => 4,
        2..=4 => dice.pick(&[8, 0x80, 0x84, 0x100, 0x104, 0x180, 0x184, 0x190]),
        5..=9 => 4 * dice.between(1, 1_024),
        10..=12 => dice.pick(&[4_096, 8_192, 4_100]),
        _ => dice.pick(&[0x1A0, 0x200, 0x200, 0x400]),
    }
}
