//! The questions: `blame` and `before`, each beside what the kept states say.

use crate::dice::Dice;
use crate::faults::Fault;
use crate::met::Met;
use crate::moves;
use crate::past::{Change, FRAME, RAM_BASE};
use crate::program::{Home, PLACES, PROGRAM, STORES};
use crate::screen::{self, Before, Blame, Frame, Now};
use crate::session::Said;
use crate::world::World;
use reference::layout::RECORD_BYTES;

/// A record of a store (docs/RECORD.md), and the distance in it.
const KIND: std::ops::Range<usize> = 236..240;
const DISTANCE: std::ops::Range<usize> = 248..252;

/// The journal without the distances: steps that are run again know none to a
/// step that has fallen out of the journal since.
fn without_distances(journal: &[u8]) -> Vec<u8> {
    let mut journal = journal.to_vec();
    for record in journal.chunks_exact_mut(RECORD_BYTES) {
        if record[KIND] == [3, 0, 0, 0] {
            record[DISTANCE].fill(0);
        }
    }
    journal
}

/// Every byte that a session may write, but for distances.
#[derive(PartialEq, Eq)]
pub struct Kept([Vec<u8>; 5]);

impl Kept {
    pub fn of(world: &World) -> Kept {
        let lent = &world.session.panel.lent;
        let buffers = [&lent.image, &lent.ram, &lent.paper, &lent.journal, &lent.index];
        let mut kept = buffers.map(|buffer| buffer.content().to_vec());
        kept[3] = without_distances(&kept[3]);
        Kept(kept)
    }

    pub fn check(&self, world: &World, line: &str) {
        let now = Kept::of(world);
        for (name, (now, kept)) in
            ["image", "RAM", "paper", "journal", "index"].iter().zip(now.0.iter().zip(&self.0))
        {
            assert!(now == kept, "{name} after {line}");
        }
    }

    pub fn check_journal(&self, world: &World, line: &str) {
        assert!(Kept::of(world).0[3] == self.0[3], "journal after {line}");
    }
}

/// Where one of the newest steps, on hand or not, wrote to.
fn recent(dice: &mut Dice, world: &World) -> u32 {
    let past = &world.past;
    let steps = past.states.len() as u64;
    let newest = u64::from(dice.below(past.on_hand as u32 + 3));
    let older = (newest.min(steps - 1)..steps).find_map(|ago| past.ago(ago).stored);
    older.unwrap_or(0)
}

fn place(dice: &mut Dice, world: &World) -> u64 {
    let ram = world.past.ram().len() as u32;
    let place = match dice.below(10) {
        0..=6 => recent(dice, world),
        7 => 4 * dice.below(ram / 4),
        8 if world.home != Home::Rom => {
            let other = u32::from(world.home == Home::Pages && dice.chance(2)) << 12;
            other + PROGRAM + 4 * dice.below(28)
        }
        _ => {
            let there = PLACES.iter().filter(|&&place| place < ram).count();
            PLACES[dice.below(there as u32) as usize]
        }
    };
    u64::from(RAM_BASE + place)
}

/// Mostly a word of RAM; sometimes odd, or beside RAM, also by its upper half.
fn address(dice: &mut Dice, world: &World) -> u64 {
    let good = place(dice, world);
    let end = u64::from(RAM_BASE) + world.past.ram().len() as u64;
    match dice.below(12) {
        0 => good + u64::from(dice.between(1, 3)),
        1 => match dice.below(8) {
            0 => end,
            1 => end + 4 * u64::from(dice.below(3)),
            2 => u64::from(RAM_BASE) - 4,
            3 => good - u64::from(RAM_BASE),
            4 => 0x1FC0_0000 + 4 * u64::from(dice.below(64)),
            5 => good + (u64::from(dice.word().max(1)) << 32),
            6 => u64::MAX - u64::from(dice.below(8)),
            _ => dice.any_size() & !3 | 1 << 33,
        },
        _ => good,
    }
}

fn text(dice: &mut Dice, number: u64) -> String {
    match dice.below(6) {
        0 => format!("{number}"),
        1 => format!("0X{number:016X}"),
        2 => format!("00{number}"),
        _ => format!("{number:#x}"),
    }
}

/// The place in RAM of an address that names a word of it.
pub fn word_of(world: &World, address: u64) -> Option<u32> {
    let place = address.checked_sub(RAM_BASE.into())?;
    (address % 4 == 0 && place < world.past.ram().len() as u64).then_some(place as u32)
}

/// What is due of the frame of a word, as the machine stands.
pub fn frame_due(world: &World, address: u64) -> Frame {
    let frame = (address - u64::from(RAM_BASE)) as usize / FRAME;
    let begins = u64::from(RAM_BASE) + (frame * FRAME) as u64;
    Frame { address: begins, changed_at: world.past.frame_changed_at(frame) }
}

pub fn due(world: &World, address: u64) -> Blame {
    let past = &world.past;
    let place = match word_of(world, address) {
        None => return Blame::Refused { ram_bytes: past.ram().len() as u64 },
        Some(place) => place,
    };
    let frame = frame_due(world, address);
    match past.last_change(place) {
        Some(change) => Blame::Changed { address, change, frame },
        None => {
            Blame::None { address, holds: past.now().word(place), on_hand: past.on_hand, frame }
        }
    }
}

/// Behind a command that is the program's arguments.
fn check_end(said: &Said, refused: bool, line: &str) {
    if let Some(ended) = said.ended {
        assert_eq!(ended, (refused, refused.into()), "error stream and status of {line}");
    }
}

fn count(world: &World, blame: &Blame, met: &mut Met) {
    let past = &world.past;
    let wrapped = past.slots > 0 && past.states.len() as u64 > past.slots + 1;
    met.blames += 1;
    met.wrapped += u64::from(wrapped);
    met.after_take_back += u64::from(world.taken_back);
    match blame {
        Blame::Refused { .. } => {}
        Blame::None { address, on_hand, frame, .. } => {
            met.frame_only += u64::from(frame.changed_at.is_some());
            let place = (*address as u32).wrapping_sub(RAM_BASE);
            let older = *on_hand + 1..past.states.len() as u64;
            met.unchanged += 1;
            met.none_on_hand += u64::from(*on_hand == 0);
            met.older_change += u64::from(older.rev().any(|ago| past.changed(ago, place)));
            met.equal_stores += u64::from((1..=*on_hand).any(|ago| past.stored(ago, place)));
        }
        Blame::Changed { address, change, frame } => {
            met.frame_later += u64::from(frame.changed_at != Some(change.clock));
            let place = (*address as u32).wrapping_sub(RAM_BASE);
            met.changed += 1;
            met.newest += u64::from(change.ago == 1);
            met.oldest += u64::from(change.ago == past.on_hand);
            met.round_the_end += u64::from(change.ago > past.next_slot);
            met.equal_stores += u64::from((1..change.ago).any(|ago| past.stored(ago, place)));
            count_step(world, change, place, met);
        }
    }
}

fn count_step(world: &World, change: &Change, place: u32, met: &mut Met) {
    let past = &world.past;
    let opcode = STORES.iter().position(|&store| store == change.instruction >> 26);
    met.by_store[opcode.expect("only stores change RAM")] += 1;
    met.by_frame[place as usize >> 12] += 1;
    met.rewritten += u64::from(past.rewritten_now(change.ago) != change.instruction);
    met.another_now += u64::from(past.instruction_now(change.pc) != change.instruction);
    let since = || (0..change.ago).map(|ago| past.ago(ago));
    met.exceptions_since += u64::from(since().any(|state| state.entered));
    let paper = &past.ago(change.ago).paper;
    met.paper_since += u64::from(past.now().paper != *paper);
    let busy = |status| past.ago(change.ago).machine.printers.iter().any(|p| p.status == status);
    met.printer_busy += u64::from(busy(3));
    let clock = past.now().machine.clock;
    met.clock_round += u64::from(clock < change.clock || clock >> 32 != change.clock >> 32);
}

pub fn blame(dice: &mut Dice, world: &mut World, fault: Option<Fault>, met: &mut Met) {
    let address = address(dice, world);
    let line = format!("blame {}", text(dice, address));
    let kept = Kept::of(world);
    let mut said = world.session.say(&line);
    if let Some(fault) = fault {
        fault.at_blame(world, address, &mut said);
    }
    kept.check(world, &line);
    let told = screen::blame(&said.screen);
    let due = due(world, address);
    assert_eq!(told, due, "{line}");
    let refused = matches!(told, Blame::Refused { .. });
    check_end(&said, refused, &line);
    count(world, &told, met);
    met.odd += u64::from(refused && address % 4 != 0);
    met.outside += u64::from(refused && address % 4 == 0);
}

pub fn before(dice: &mut Dice, world: &mut World, fault: Option<Fault>, met: &mut Met) {
    let address = address(dice, world);
    let line = format!("before {}", text(dice, address));
    let kept = Kept::of(world);
    let mut said = world.session.say(&line);
    if let Some(fault) = fault {
        fault.at_before(world, address, &mut said);
    }
    let told = screen::before(&said.screen);
    let change = match due(world, address) {
        Blame::Changed { change, .. } => change,
        not => {
            kept.check(world, &line);
            let refused = matches!(not, Blame::Refused { .. });
            check_end(&said, refused, &line);
            met.before_refused += u64::from(refused);
            met.before_none += u64::from(!refused);
            return assert_eq!(told, Before::Not(not), "{line}");
        }
    };
    check_end(&said, false, &line);
    world.past.take_back(change.ago);
    world.taken_back = true;
    let Change { ago, old, new, instruction, .. } = change;
    let (frame, now) = (frame_due(world, address), now(world));
    let due = Before::Stands { address, took_back: ago, old, new, instruction, frame, now };
    assert_eq!(told, due, "{line}");
    world.check(&line);
    kept.check_journal(world, &line);
    met.stood_before += 1;
    if dice.chance(2) {
        again(dice, world, address, &change, &kept, met);
    }
}

pub fn now(world: &World) -> Now {
    let machine = &world.past.now().machine;
    Now { pc: machine.pc, clock: machine.clock, on_hand: world.past.on_hand }
}

/// The step once more changes the word; the rest of the steps, and all is as it
/// was before it was asked.
fn again(
    dice: &mut Dice,
    world: &mut World,
    address: u64,
    change: &Change,
    kept: &Kept,
    met: &mut Met,
) {
    let place = (address - u64::from(RAM_BASE)) as usize;
    let word = |world: &World| {
        let bytes = &world.session.panel.lent.ram.content()[place..][..4];
        u32::from_le_bytes(bytes.try_into().expect("four bytes"))
    };
    assert_eq!(word(world), change.old, "the word just before the step");
    moves::run(world, dice.pick(&["stepi", "si", "run 1"]), 1, false);
    assert_eq!(word(world), change.new, "the word behind the step");
    met.stepped_again += 1;
    if dice.chance(2) {
        let rest = change.ago - 1;
        moves::run(world, &format!("run {rest}"), rest, false);
        kept.check(world, "before, and as many steps again");
        met.all_again += 1;
    }
}
