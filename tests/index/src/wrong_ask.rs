//! The question who last wrote a word, answered by going back over a copy of
//! RAM, with or without a fault.

use crate::entry;
use crate::faults::Fault::{self, *};
use crate::lent::{empty_index, Slices};
use crate::program::RAM;
use crate::record::{at, newest, word, KIND, OLD, RAM_WORD, WHICH};
use reference::diskless::{last_write, take_back};
use reference::layout::RECORD_BYTES;
use reference::{decode, Answer, Machine};

struct Write {
    steps: u32,
    old: u32,
    new: u32,
}

fn slots_of(fault: Fault, machine: &Machine, slots: usize) -> Vec<usize> {
    let count = match fault {
        LooksAtAllSlots => slots,
        LooksNotRoundTheEnd => machine.on_hand.min(machine.next_slot) as usize,
        _ => machine.on_hand as usize,
    };
    if slots == 0 {
        Vec::new()
    } else {
        newest(machine.next_slot, slots, count).collect()
    }
}

/// All that wrote the word, the latest first.
fn writes(fault: Fault, machine: &Machine, ram: &[u8], journal: &[u8], place: u32) -> Vec<Write> {
    let mut ram = ram.to_vec();
    let mut found = Vec::new();
    for (steps, slot) in (1..).zip(slots_of(fault, machine, journal.len() / RECORD_BYTES)) {
        let record = at(journal, slot);
        let (at, old) = (word(record, WHICH), word(record, OLD));
        if word(record, KIND) != RAM_WORD || at as usize >= ram.len() / 4 * 4 || at % 4 != 0 {
            continue;
        }
        let bytes = &mut ram[at as usize..][..4];
        let new = word(bytes, 0);
        bytes.copy_from_slice(&old.to_le_bytes());
        let here = at == place || fault == FrameForWord && at / 4_096 == place / 4_096;
        if here && (old != new || fault == EqualStoreTold) {
            found.push(Write { steps, old, new });
        }
    }
    found
}

/// Whether so many records, from the newest on, are well formed.
fn well_formed(lent: &Slices, steps: u32) -> bool {
    let (mut image, mut ram, mut paper) =
        (lent.image.to_vec(), lent.ram.to_vec(), lent.paper.to_vec());
    let mut index = empty_index(ram.len());
    let steps = steps.into();
    take_back(&mut image, &mut ram, &mut paper, lent.journal, &mut index, steps).number == 0
}

/// What a call is asked with, changed so that a fault does not judge it.
fn mended(fault: Fault, lent: &Slices, address: u64) -> u64 {
    let end = u64::from(RAM) + lent.ram.len() as u64;
    match fault {
        AskTakesAnyByteAddress => address & !3,
        AskTakesTheLowHalf => address & 0xFFFF_FFFF,
        AskTakesTheEnd if address == end => end - 4,
        AskTakesAnAddressBelow if address < RAM.into() && address % 4 == 0 => RAM.into(),
        _ => address,
    }
}

/// The number that a fault judges instead; 0: it goes on.
fn number(fault: Fault, lent: &Slices, address: u64, answer_bytes: usize, found: u8) -> u8 {
    let due = empty_index(lent.ram.len()).len();
    let wrong_index = lent.index.len() != due;
    let end = u64::from(RAM) + lent.ram.len() as u64;
    let wrong_address = address % 4 != 0 || !(RAM.into()..end).contains(&address);
    let wrong_answer = answer_bytes != 16;
    match (fault, found) {
        (IndexBeforeRecords, 8) if wrong_index => 10,
        (AddressBeforeRecords, 8) if wrong_address => 11,
        (AddressBeforeIndex, 10) if wrong_address => 11,
        (AnswerBeforeAddress, 11) if wrong_answer => 12,
        (AnswerBeforeIndex, 10) if wrong_answer => 12,
        (AskJudgesNoIndex, 10) => 0,
        (AskTakesALongerIndex, 10) if lent.index.len() > due => 0,
        (AskTakesALongerAnswer, 12) if answer_bytes > 16 => 0,
        (AskTakesAShorterAnswer, 12) if answer_bytes > 0 && answer_bytes < 16 => 0,
        (JudgesNoRecord, 8) if !wrong_index && !wrong_address && !wrong_answer => 0,
        (JudgesTheNewestRecord, 8) if !wrong_index && !wrong_address && !wrong_answer => {
            u8::from(!well_formed(lent, 1)) * 8
        }
        _ => found,
    }
}

fn told(fault: Fault, machine: &Machine, write: &Write) -> [u8; 16] {
    let after = machine.clock.wrapping_sub(u64::from(write.steps) - 1);
    let clock = match fault {
        ToldClockBeforeTheTick => after.wrapping_sub(1),
        ToldClockOfNow => machine.clock,
        ToldClockWordsSwapped => after.rotate_left(32),
        _ => after,
    };
    let (old, new) = match fault {
        OldAndNewSwapped => (write.new, write.old),
        ToldInByteOrder => (write.old.swap_bytes(), write.new.swap_bytes()),
        _ => (write.old, write.new),
    };
    entry::of_words([(clock >> 32) as u32, clock as u32, old, new])
}

fn found(fault: Fault, lent: &Slices, machine: &Machine, place: u32) -> Option<Write> {
    let mut writes = writes(fault, machine, lent.ram, lent.journal, place);
    let start = place as usize / entry::FRAME * entry::ENTRY_BYTES;
    let names = lent.index.get(start..start + entry::ENTRY_BYTES).and_then(entry::named);
    if fault == TrustsTheIndex && names.is_none() {
        return None;
    }
    let oldest = writes.last().map(|write| write.old);
    let mut write = match fault {
        OldestForLatest => writes.pop(),
        _ => writes.into_iter().next(),
    }?;
    if fault == OldOfTheOldest {
        write.old = oldest?;
    }
    Some(write)
}

fn steps(fault: Fault, machine: &Machine, write: &Write) -> u32 {
    match fault {
        StepsOneLess => write.steps - 1,
        StepsFromTheOldest => machine.on_hand.wrapping_sub(write.steps).wrapping_add(1),
        _ => write.steps,
    }
}

/// What must stay as it is.
fn write_elsewhere(fault: Fault, lent: &mut Slices) {
    let bytes = match fault {
        AskWritesTheIndex => &mut *lent.index,
        AskWritesTheImage => &mut *lent.image,
        AskWritesRam => &mut *lent.ram,
        AskWritesTheJournal => &mut *lent.journal,
        _ => return,
    };
    if let Some(byte) = bytes.last_mut() {
        *byte ^= 0x40;
    }
}

pub fn ask(fault: Fault, mut lent: Slices, address: u64, answer: &mut [u8]) -> Answer {
    let address = mended(fault, &lent, address);
    let Slices { image, ram, paper, journal, index, .. } = &lent;
    let scratch = &mut vec![0; answer.len()];
    let judged = last_write(image, ram, paper, journal, index, address, scratch).number;
    let mut refused = number(fault, &lent, address, answer.len(), judged);
    if fault == JudgesUpToTheFound && judged == 8 {
        let machine = decode(lent.image);
        let place = address.wrapping_sub(RAM.into()) as u32;
        let first = found(fault, &lent, &machine, place);
        let goes_on = first.map_or(false, |write| well_formed(&lent, write.steps));
        refused = if goes_on && answer.len() == 16 { 0 } else { 8 };
    }
    if refused != 0 {
        if fault == RefusalClearsTheAnswer {
            answer.fill(0);
        }
        return Answer::refused(refused);
    }
    let machine = decode(lent.image);
    let found = found(fault, &lent, &machine, (address - u64::from(RAM)) as u32);
    write_elsewhere(fault, &mut lent);
    let bytes = match &found {
        None if fault == NoneIsRefused => return Answer::refused(7),
        None if fault == NoneLeavesTheAnswer => return Answer::done(0, 0),
        None => [0; 16],
        Some(write) => told(fault, &machine, write),
    };
    let length = answer.len().min(16);
    answer[..length].copy_from_slice(&bytes[..length]);
    let reason = u8::from(fault == ToldWithAReason);
    Answer::done(reason, found.map_or(0, |write| steps(fault, &machine, &write)))
}
