//! The index, kept step by step from the rules that are due for any bytes in it
//! and in the journal, with or without a fault; and what was met on the way.

use crate::entry;
use crate::faults::Fault::{self, *};
use crate::record::{set, word, DISTANCE, KIND, OLD, RAM_WORD, UNUSED, WHICH};

/// What was met, by steps and by records taken back.
#[derive(Default)]
pub struct Kept {
    pub changes: u64,
    pub equal_stores: u64,
    pub distances: u64,
    /// That need more than 8, and all 15 bits.
    pub wide: [u64; 2],
    /// An entry that named a step that is not on hand below.
    pub out_of_reach: u64,
    /// Bytes other than 0 that name none.
    pub unreadable: u64,
    pub drops: u64,
    pub emptied: u64,
    /// The dropped step was not the frame's last changer.
    pub not_emptied: u64,
    pub outside: u64,
    pub brought_back: u64,
    pub emptied_back: u64,
    /// The step before has been dropped since.
    pub before_dropped: u64,
    pub not_named: u64,
    pub without_slots: u64,
    pub fourth: Fourth,
}

/// What was met of entries that name a step and have a fourth word that is not 0.
#[derive(Default)]
pub struct Fourth {
    pub distances: u64,
    /// By a store that changed a word.
    pub replaced: u64,
    /// At a store of an equal value.
    pub left: u64,
    pub dropped: u64,
    pub drop_left: u64,
    pub brought_back: u64,
    pub emptied_back: u64,
    /// A take-back of a step that they do not name.
    pub back_left: u64,
}

/// A step that has just been taken.
pub struct Taken<'a> {
    pub slots: u32,
    /// Before the step.
    pub on_hand: u32,
    /// Behind its tick.
    pub clock: u64,
    /// What stood in its slot.
    pub dropped: &'a [u8],
    pub record: &'a mut [u8],
    /// In RAM now, at the record's place.
    pub now: u32,
}

/// `wants` is the fault that reads a fourth word here.
fn named(fault: Fault, wants: Fault, bytes: &[u8]) -> Option<u64> {
    let [first, high, low, fourth] = entry::words(bytes);
    let read = match fault {
        AnyFirstWordNames if first != 0 => 1,
        LastByteOfTheFirstWordNames => first & 0xFF,
        NothingNamedBeforeAFourthWord if fourth != 0 => 0,
        _ if fault == wants && fourth != 0 => 0,
        _ => first,
    };
    entry::named(&entry::of_words([read, high, low, fourth]))
}

/// All of the entry, but for the fourth word where the fault leaves it.
fn replace(leaves: bool, entry: &mut [u8], by: [u8; 16]) {
    let bytes = if leaves { 12 } else { 16 };
    entry[..bytes].copy_from_slice(&by[..bytes]);
}

fn marked(fault: Fault, clock: u64) -> [u8; 16] {
    let (high, low) = ((clock >> 32) as u32, clock as u32);
    match fault {
        ClockBeforeTheTick => entry::of(Some(clock.wrapping_sub(1))),
        ClockWithoutItsHighWord => entry::of_words([1, 0, low, 0]),
        EntryLittleEndian => entry::of_words([1, high, low, 0].map(u32::swap_bytes)),
        EntryWithAnotherFirstWord => entry::of_words([2, high, low, 0]),
        EntryWithAFourthWord => entry::of_words([1, high, low, 1]),
        _ => entry::of(Some(clock)),
    }
}

fn drops(fault: Fault, taken: &Taken) -> bool {
    match fault {
        DropOneStepEarly => taken.on_hand + 1 >= taken.slots,
        DroppedStepStays => false,
        _ => taken.on_hand == taken.slots,
    }
}

/// A full journal drops the record of its oldest step.
fn drop_oldest(fault: Fault, index: &mut [u8], taken: &Taken, met: &mut Kept) {
    let record = taken.dropped;
    met.drops += 1;
    let read = |place| match fault {
        DropReadsBigEndian => word(record, place).swap_bytes(),
        _ => word(record, place),
    };
    if read(KIND) != RAM_WORD && fault != DropIgnoresTheKind {
        return;
    }
    let inside = entry::at(index, read(WHICH)).is_some();
    met.outside += u64::from(!inside);
    let place = match (inside, fault) {
        (true, _) => read(WHICH),
        (false, DropOutsideMeetsTheFirstFrame) => 0,
        _ => return,
    };
    let gone = match fault {
        DropFromAWrongClock => taken.clock.wrapping_sub(taken.slots.into()).wrapping_sub(1),
        _ => taken.clock.wrapping_sub(taken.slots.into()),
    };
    let entry = entry::at(index, place).expect("inside");
    let fourth = entry::has_fourth(entry);
    let names = named(fault, DropBeforeAFourthWordNamesNothing, entry) == Some(gone);
    if names || fault == DropEmptiesAnyEntry {
        replace(fault == DropLeavesTheFourthWord, entry, entry::of(None));
        met.emptied += 1;
        met.fourth.dropped += u64::from(fourth);
    } else {
        met.not_emptied += 1;
        met.fourth.drop_left += u64::from(fourth);
    }
}

/// How far back the step lies that the entry names, and 0 if it is not on hand.
fn distance(fault: Fault, before: Option<u64>, taken: &Taken, met: &mut Kept) -> u32 {
    let below = u64::from(taken.on_hand.min(taken.slots - 1));
    let far = match before {
        None => return 0,
        Some(before) => taken.clock.wrapping_sub(before),
    };
    let on_hand = (1..=below).contains(&far);
    met.distances += u64::from(on_hand);
    met.wide[0] += u64::from(on_hand && far > 0xFF);
    met.wide[1] += u64::from(on_hand && far > 0x3FFF);
    met.out_of_reach += u64::from(!on_hand);
    match fault {
        DistanceLeftOut => 0,
        DistanceOneMore if on_hand => far as u32 + 1,
        DistanceOneLess if on_hand => far as u32 - 1,
        DistanceLeftOutOfEqualStores if taken.now == word(taken.record, OLD) => 0,
        DistanceOfAnyEntry => far.min(65_535) as u32,
        DistanceCutToItsLowHalf => far as u32 & 0xFFFF,
        DistanceOfOneByte if on_hand => far as u32 & 0xFF,
        DistanceOfFourteenBits if on_hand => far as u32 & 0x3FFF,
        _ if on_hand => far as u32,
        _ => 0,
    }
}

fn store(fault: Fault, index: &mut [u8], taken: &mut Taken, met: &mut Kept) {
    let place = match fault {
        FrameBefore => word(taken.record, WHICH).saturating_sub(4_096),
        _ => word(taken.record, WHICH),
    };
    let entry = entry::at(index, place).expect("a step stores inside RAM");
    let fourth = entry::has_fourth(entry);
    let before = named(fault, StoreBeforeAFourthWordNamesNothing, entry);
    met.unreadable += u64::from(before.is_none() && entry.iter().any(|byte| *byte != 0));
    let changed = taken.now != word(taken.record, OLD);
    met.changes += u64::from(changed);
    met.equal_stores += u64::from(!changed);
    met.fourth.replaced += u64::from(fourth && changed);
    met.fourth.left += u64::from(fourth && !changed);
    let mut kept = distance(fault, before, taken, met);
    met.fourth.distances += u64::from(fourth && kept != 0);
    let stays = fault == FirstChangerStays && before.is_some();
    if (changed || fault == EqualStoreCounted) && !stays {
        replace(fault == MarkLeavesTheFourthWord, entry, marked(fault, taken.clock));
        if fault == DistanceBehindTheMark {
            kept = 0;
        }
    } else if fault == EqualStoreClearsTheFourthWord && fourth {
        entry[12..].fill(0);
    }
    let word = if fault == DistanceInTheLastWord { UNUSED } else { DISTANCE };
    set(taken.record, word, kept);
}

pub fn step(fault: Fault, index: &mut [u8], taken: &mut Taken, met: &mut Kept) {
    if drops(fault, taken) {
        drop_oldest(fault, index, taken, met);
    }
    if word(taken.record, KIND) == RAM_WORD {
        store(fault, index, taken, met);
    }
}

/// The step of this record is taken back, from `clock` and with so many below it.
pub fn back(fault: Fault, index: &mut [u8], record: &[u8], clock: u64, below: u32, met: &mut Kept) {
    if word(record, KIND) != RAM_WORD {
        return;
    }
    let entry = entry::at(index, word(record, WHICH)).expect("a judged place is inside RAM");
    let fourth = entry::has_fourth(entry);
    let names = named(fault, BackBeforeAFourthWordNamesNothing, entry) == Some(clock);
    met.not_named += u64::from(!names);
    let distance = word(record, DISTANCE);
    let reached = match fault {
        StepBeforeNotBroughtBack => false,
        DroppedStepBroughtBack => distance >= 1,
        OldestNotBroughtBack => (1..below).contains(&distance),
        _ => (1..=below).contains(&distance),
    };
    let touches = match fault {
        StepTakenBackStays => false,
        EqualStoreBringsBack | AnyStoreEmpties => true,
        _ => names,
    };
    if !touches {
        met.fourth.back_left += u64::from(fourth);
        if fault == BackOfAnotherClearsTheFourthWord && fourth {
            entry[12..].fill(0);
        }
        return;
    }
    let before = clock.wrapping_sub(distance.into());
    met.brought_back += u64::from(reached);
    met.emptied_back += u64::from(distance == 0);
    met.before_dropped += u64::from(distance > below);
    met.fourth.brought_back += u64::from(fourth && reached);
    met.fourth.emptied_back += u64::from(fourth && !reached);
    let left = if reached && (names || fault != AnyStoreEmpties) { Some(before) } else { None };
    replace(fault == BackLeavesTheFourthWord, entry, entry::of(left));
}
