//! What a wrong panel would show for `blame`.

use crate::ask::{due, frame_due, word_of};
use crate::faults::Fault;
use crate::past::Change;
use crate::screen::{self, Blame, Frame};
use crate::show;
use crate::world::World;

const SW: u32 = 0x2B;

/// The newest step on hand that passes the test, shown as if it were the answer.
fn newest(world: &World, place: u32, address: u64, test: impl Fn(u64) -> bool) -> Blame {
    let (past, frame) = (&world.past, frame_due(world, address));
    match (1..=past.on_hand).find(|&ago| test(ago)) {
        Some(ago) => Blame::Changed { address, change: past.change(ago, place), frame },
        None => {
            Blame::None { address, holds: past.now().word(place), on_hand: past.on_hand, frame }
        }
    }
}

impl Fault {
    /// An answer that is another one, from what the reference knows.
    fn answer(self, world: &World, address: u64, true_one: &Blame) -> Option<Blame> {
        let past = &world.past;
        let low = u64::from(address as u32) & !3;
        let at = match self {
            Fault::OddAnswered => address & !3,
            Fault::UpperHalfDropped if address % 4 == 0 => low,
            _ => address,
        };
        let place = word_of(world, at)?;
        let changed = |ago| past.changed(ago, place);
        Some(match self {
            Fault::OddAnswered | Fault::UpperHalfDropped => due(world, at),
            Fault::OldestWriter => {
                let oldest = (1..=past.on_hand).rev().find(|&ago| changed(ago))?;
                newest(world, place, at, |ago| ago == oldest)
            }
            Fault::EqualStoreCounts => newest(world, place, at, |ago| past.stored(ago, place)),
            Fault::BeyondTheJournal => {
                let ago = (1..past.states.len() as u64).find(|&ago| changed(ago))?;
                let frame = frame_due(world, address);
                Blame::Changed { address, change: past.change(ago, place), frame }
            }
            Fault::OldestOverlooked => {
                newest(world, place, at, |ago| ago < past.on_hand && changed(ago))
            }
            Fault::NewestOverlooked => newest(world, place, at, |ago| ago > 1 && changed(ago)),
            Fault::NoneThoughChanged => newest(world, place, at, |_| false),
            Fault::AnyWordOfTheFrame => newest(world, place, at, |ago| {
                let stored = past.ago(ago - 1).stored;
                stored.map_or(false, |other| other >> 12 == place >> 12 && past.changed(ago, other))
            }),
            Fault::PartStoresOverlooked => newest(world, place, at, |ago| {
                changed(ago) && past.instruction(past.ago(ago)) >> 26 == SW
            }),
            Fault::LastWordRefused if place as usize + 4 == past.ram().len() => {
                Blame::Refused { ram_bytes: past.ram().len() as u64 }
            }
            _ => true_one.clone(),
        })
    }

    /// One number of a true answer, made wrong.
    fn number(self, world: &World, change: &mut Change) {
        let past = &world.past;
        match self {
            Fault::OneStepMore => change.ago += 1,
            Fault::OneStepLess => change.ago -= 1,
            Fault::ClockBeforeItsTick => change.clock = change.clock.wrapping_sub(1),
            Fault::ClockOneMore => change.clock = change.clock.wrapping_add(1),
            Fault::PcOfTheNext => change.pc = past.ago(change.ago - 1).machine.pc,
            Fault::InstructionOfToday => change.instruction = past.instruction_now(change.pc),
            Fault::InstructionByRamOfToday => change.instruction = past.rewritten_now(change.ago),
            Fault::OldForNew => change.new = change.old,
            Fault::NewForOld => change.old = change.new,
            _ => {}
        }
    }

    /// The word's frame, made wrong.
    fn in_frame(self, world: &World, frame: &mut Frame) {
        let number = (frame.address & 0xFF_FFFF) as usize >> 12;
        let frames = world.past.ram().len() >> 12;
        match self {
            Fault::FrameOfTheNext => {
                frame.changed_at = world.past.frame_changed_at((number + 1) % frames)
            }
            Fault::FrameAddressOfTheNext => frame.address += 0x1000,
            Fault::FrameClockOneMore => {
                frame.changed_at = frame.changed_at.map(|clock| clock.wrapping_add(1))
            }
            Fault::FrameNoneThoughChanged => frame.changed_at = None,
            _ => {}
        }
    }

    /// The screen of `blame` as this panel would show it.
    pub fn shown(self, world: &World, address: u64, screen: &str) -> String {
        let mut told = screen::blame(screen);
        if let Some(other) = self.answer(world, address, &told) {
            told = other;
        }
        match &mut told {
            Blame::Changed { change, frame, .. } => {
                self.number(world, change);
                self.in_frame(world, frame);
            }
            Blame::None { holds, on_hand, frame, .. } => {
                self.in_frame(world, frame);
                *holds ^= u32::from(self == Fault::HoldsAnother);
                *on_hand += u64::from(self == Fault::OnHandOneMore);
            }
            Blame::Refused { ram_bytes } => *ram_bytes += u64::from(self == Fault::RamOneByteMore),
        }
        self.mangled(show::blame(&told))
    }

    fn mangled(self, mut screen: String) -> String {
        match self {
            Fault::NoCommas => {
                let digits = |text: &str| text.split(',').collect::<String>();
                if let Some((head, rest)) = screen.clone().split_once("clock ") {
                    let (number, tail) = rest.split_once(" (").unwrap_or((rest, ""));
                    screen = format!("{head}clock {} ({tail}", digits(number));
                }
            }
            Fault::LineMissing => {
                let last = screen.trim_end().rfind('\n').map_or(0, |place| place + 1);
                screen.truncate(last);
            }
            Fault::MoreBehind => screen.push('\n'),
            _ => {}
        }
        screen
    }
}
