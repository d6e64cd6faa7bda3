//! The code of a scene, and the page whose entries are doubled.

use crate::call::Call;
use crate::dice::Dice;
use crate::scene::Aim;
use crate::way::{to_access, Way};
use crate::words::STAY;
use reference::Machine;

pub struct Code {
    /// The page of the code.
    pub home: u32,
    /// The page of the access.
    pub page: u32,
    pub aim: Aim,
    /// The word that makes it, if it is no fetch.
    pub word: u32,
}

pub fn put(bytes: &mut [u8], place: usize, words: &[u32]) {
    for (four, word) in bytes[place..].chunks_exact_mut(4).zip(words) {
        four.copy_from_slice(&word.to_le_bytes());
    }
}

/// How a fetch comes to the doubled page.
enum Fetch {
    AtTheStart,
    Jump,
    /// Over the end of the page before.
    Flow,
    /// The page of the code itself gets a second entry.
    Home,
}

impl Code {
    /// Gives PC, the page that is doubled, and the steps to the access.
    pub fn lay(&self, dice: &mut Dice, machine: &mut Machine, call: &mut Call) -> (u32, u32, u32) {
        if self.aim == Aim::Word {
            let mut way = to_access(dice, machine, self.page, false);
            way.words.push(self.word);
            return (self.place(dice, call, &way), self.page, way.steps);
        }
        let fetch = match dice.below(8) {
            0 => Fetch::AtTheStart,
            1..=4 => Fetch::Jump,
            5 => Fetch::Flow,
            _ => Fetch::Home,
        };
        match fetch {
            Fetch::AtTheStart => (machine.registers[crate::words::TARGET as usize], self.page, 0),
            Fetch::Jump => {
                let way = to_access(dice, machine, self.page, true);
                (self.place(dice, call, &way), self.page, way.steps)
            }
            Fetch::Flow => {
                let way = to_access(dice, machine, self.home + 0x1000, false);
                let place = 0x1000 - 4 * way.words.len();
                put(&mut call.ram[..0x1000], place, &way.words);
                (self.home + place as u32, self.home + 0x1000, way.steps)
            }
            Fetch::Home => {
                let way = to_access(dice, machine, self.home, false);
                (self.place(dice, call, &way), self.home, way.steps)
            }
        }
    }

    /// Anywhere in the first frame; behind it the machine stays where it is.
    fn place(&self, dice: &mut Dice, call: &mut Call, way: &Way) -> u32 {
        let place = 4 * dice.below(0x300);
        put(&mut call.ram, place as usize, &way.words);
        let end = place as usize + 4 * way.words.len();
        put(&mut call.ram, end, &[0, 0, 0]);
        put(&mut call.ram, end + 12, &STAY);
        self.home + place
    }
}
