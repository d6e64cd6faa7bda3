//! What nobody has kept: entries, records and counts that no call has left.

use crate::dice::Dice;
use crate::entry::{self, ENTRY_BYTES};
use crate::history::{clock, History};
use crate::program::places;
use crate::record::{at, set, DISTANCE, KIND, OLD, RAM_WORD, WHICH};
use reference::layout::RECORD_BYTES;

/// A clock that a step near now has, the one that drops off next among them.
fn near(dice: &mut Dice, clock: u64, slots: u32) -> u64 {
    let slots = u64::from(slots);
    let any = u64::from(dice.below(slots as u32 + 3));
    let ago = dice.pick(&[0, slots.wrapping_sub(1), slots, slots + 1, any, any, any, u64::MAX]);
    clock.wrapping_sub(ago)
}

/// An entry that names the step with this clock, some with a fourth word that no
/// call writes.
fn naming(dice: &mut Dice, clock: u64) -> [u8; ENTRY_BYTES] {
    let (bit, any) = (1 << dice.below(32), dice.word());
    let fourth = dice.pick(&[0, 0, 0, 1, bit, any]);
    entry::of_words([1, (clock >> 32) as u32, clock as u32, fourth])
}

/// An entry with a first word that names none.
fn no_longer(dice: &mut Dice, clock: u64) -> [u8; ENTRY_BYTES] {
    let first = dice.pick(&[0, 2, 3, 1 << 24, 0x101, 1 << 31 | 1]);
    entry::of_words([first, (clock >> 32) as u32, clock as u32, dice.pick(&[0, 0, 1])])
}

/// An entry that names a step, nearly names one, or any bytes.
fn any_entry(dice: &mut Dice, clock: u64, slots: u32) -> [u8; ENTRY_BYTES] {
    let clock = near(dice, clock, slots);
    let (high, low) = ((clock >> 32) as u32, clock as u32);
    match dice.below(10) {
        0 => dice.bytes(ENTRY_BYTES).try_into().expect("as many"),
        1 => [0; ENTRY_BYTES],
        2 => no_longer(dice, clock),
        3 => entry::of_words([1, high, low, 0].map(u32::swap_bytes)),
        4 => {
            let any = dice.any_size();
            naming(dice, any)
        }
        5 => {
            let far = u64::from(dice.word()) << 16;
            naming(dice, clock.wrapping_add(far))
        }
        _ => naming(dice, clock),
    }
}

/// What the step had overwritten besides, by its record; and the place whose
/// frame it may be thought to be of.
fn spoil(dice: &mut Dice, record: &mut [u8], ram: u32, slots: u32) -> u32 {
    let inside = 4 * dice.below(ram / 4);
    let (kind, which, meant) = match dice.below(12) {
        0 => (RAM_WORD, inside + dice.between(1, 3), inside),
        1 => (RAM_WORD, ram + 4 * dice.below(4), 0),
        2 => (RAM_WORD, dice.pick(&[0xFFFF_FFFC, u32::MAX, 1 << 31]), 0),
        3 => (RAM_WORD.swap_bytes(), inside.swap_bytes(), inside),
        4 => (dice.pick(&[0, 1, 2, 4]), inside, inside),
        _ => (RAM_WORD, inside, inside),
    };
    let any = dice.below(slots + 2);
    let word = dice.word();
    let distance = dice.pick(&[0, 1, slots - 1, slots, any, any, 65_535, 65_536, word]);
    for (place, value) in [(KIND, kind), (WHICH, which), (OLD, dice.word()), (DISTANCE, distance)] {
        set(record, place, value);
    }
    meant
}

impl History<'_> {
    fn entry(&self, place: u32) -> &[u8] {
        let frame = place as usize / entry::FRAME;
        &self.sides.theirs.index[frame * ENTRY_BYTES..][..ENTRY_BYTES]
    }

    fn set_entry(&mut self, place: u32, entry: [u8; ENTRY_BYTES]) {
        let frame = place as usize / entry::FRAME;
        self.sides.set_index(frame * ENTRY_BYTES, &entry);
    }

    /// Some entries; what the journal tells is known as before.
    pub fn spoil_index(&mut self, dice: &mut Dice) {
        let machine = self.sides.machine();
        for _ in 0..dice.between(1, 4) {
            let place = dice.pick(&places(self.frames));
            let entry = any_entry(dice, machine.clock, self.slots as u32);
            self.set_entry(place, entry);
        }
        self.kept = false;
        self.met.spoiled += 1;
    }

    /// All but the clocks of entries that name a step: mostly they name it still.
    pub fn spoil_beside_clocks(&mut self, dice: &mut Dice) {
        for place in places(self.frames) {
            if let Some(clock) = entry::named(self.entry(place)) {
                let entry =
                    if dice.chance(4) { no_longer(dice, clock) } else { naming(dice, clock) };
                self.set_entry(place, entry);
                self.kept = false;
            }
        }
    }

    /// Steps on hand and a clock that are the host's, and records of its own.
    pub fn forge(&mut self, dice: &mut Dice) {
        self.known = false;
        self.kept = false;
        self.met.forged += 1;
        let slots = self.slots as u32;
        if slots == 0 {
            return;
        }
        let (any, new_clock) = (dice.between(0, slots), clock(dice, self.slots));
        let (all, other_clock) = (dice.chance(2), dice.chance(4));
        self.sides.change(|machine| {
            machine.on_hand = if all { slots } else { machine.on_hand.max(any) };
            machine.clock = if other_clock { new_clock } else { machine.clock };
        });
        for _ in 0..dice.between(1, 3) {
            self.forge_record(dice);
        }
        self.spoil_index(dice);
    }

    /// Mostly the newest or the one that drops off next, and the entry that names
    /// its step.
    fn forge_record(&mut self, dice: &mut Dice) {
        let machine = self.sides.machine();
        let slots = self.slots as u32;
        let any = dice.between(1, slots);
        let age = dice.pick(&[1, 1, slots, slots, slots, any]);
        let slot = ((machine.next_slot + slots - age) % slots) as usize;
        let mut record = at(&self.sides.theirs.journal, slot).to_vec();
        if dice.chance(8) {
            record = dice.bytes(RECORD_BYTES);
        }
        let meant = spoil(dice, &mut record, (self.frames * entry::FRAME) as u32, slots);
        self.sides.set_record(slot, &record);
        if !dice.chance(3) {
            let clock = machine.clock.wrapping_sub(u64::from(age) - 1);
            let entry = naming(dice, clock);
            self.set_entry(meant, entry);
        }
    }
}
