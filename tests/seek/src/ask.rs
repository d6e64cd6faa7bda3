//! Every question about a history, each beside the answer that its past gives.

use crate::archive::{last_change, newest_at, oldest_at, Mark};
use crate::dice::Dice;
use crate::history::History;
use crate::met::Met;
use crate::program::{PLACES, START};
use reference::layout::{word, KIND, RAM_WORD, RECORD_BYTES, WHICH};

/// Stores to `place` among the newest `count` records, for the counts only.
fn stores(history: &History, mark: Mark, place: u32, count: usize) -> usize {
    (1..=count)
        .filter(|k| {
            let slot = (mark.next_slot as usize + history.slots - k) % history.slots;
            let record = &history.journal[RECORD_BYTES * slot..][..RECORD_BYTES];
            let record = record.try_into().expect("a slot is one record");
            word(record, KIND) == RAM_WORD && word(record, WHICH) == place
        })
        .count()
}

fn changes(history: &History, mark: Mark, met: &mut Met) {
    for (which, &place) in PLACES.iter().enumerate() {
        let due = history.past.last_change(which);
        let told = last_change(&history.ram, &history.journal, mark, place);
        assert_eq!(told, due, "last_change, place {place:#x}, {mark:?}, {} slots", history.slots);
        met.questions += 1;
        let passed = told.map_or(mark.on_hand, |(k, _, _)| k - 1);
        met.equal_stores += u64::from(stores(history, mark, place, passed as usize) > 0);
        match told {
            None => met.unchanged += 1,
            Some((k, _, _)) => {
                met.changed += 1;
                met.changed_by_newest += u64::from(k == 1);
                met.changed_by_oldest += u64::from(k == mark.on_hand);
                met.round_the_end += u64::from(k > mark.next_slot);
            }
        }
    }
}

/// One where the machine was, or any place of the program.
fn asked_pc(dice: &mut Dice, history: &History) -> u32 {
    if dice.chance(3) {
        return START + 4 * dice.below(40) + u32::from(dice.chance(30));
    }
    let moments = &history.past.moments;
    moments[dice.below(moments.len() as u32) as usize].pc
}

fn pcs(dice: &mut Dice, history: &History, mark: Mark, met: &mut Met) {
    for _ in 0..6 {
        let pc = asked_pc(dice, history);
        let newest = newest_at(&history.journal, mark, pc);
        let oldest = oldest_at(&history.journal, mark, pc);
        assert_eq!(newest, history.past.newest_at(pc), "newest_at {pc:#x}, {mark:?}");
        assert_eq!(oldest, history.past.oldest_at(pc), "oldest_at {pc:#x}, {mark:?}");
        met.questions += 2;
        met.at_pc += u64::from(newest.is_some());
        met.not_at_pc += u64::from(newest.is_none());
        met.newest_not_oldest += u64::from(newest != oldest);
    }
}

/// Numbers that do not fit have no answer.
fn unfit(dice: &mut Dice, history: &History, mark: Mark, met: &mut Met) {
    let slots = history.slots as u32;
    let above = slots + dice.pick(&[1, 2, 1 << 20, u32::MAX - slots]);
    let behind = slots + dice.pick(&[0, 1, 1 << 20, u32::MAX - slots]);
    let pc = history.past.moments[0].pc;
    for wrong in [Mark { on_hand: above, ..mark }, Mark { next_slot: behind, ..mark }] {
        for place in PLACES {
            let told = last_change(&history.ram, &history.journal, wrong, place);
            assert_eq!(told, None, "last_change, {wrong:?}, {slots} slots");
        }
        assert_eq!(newest_at(&history.journal, wrong, pc), None, "newest_at, {wrong:?}");
        assert_eq!(oldest_at(&history.journal, wrong, pc), None, "oldest_at, {wrong:?}");
    }
    let bytes = history.ram.len() as u32;
    for place in [1, 2, 3, 5, bytes - 2, bytes, bytes + 4, u32::MAX, u32::MAX - 3] {
        let told = last_change(&history.ram, &history.journal, mark, place);
        assert_eq!(told, None, "last_change, place {place:#x}");
    }
    met.unfit += 1;
}

pub fn all(dice: &mut Dice, history: &History, met: &mut Met) {
    let mark = history.mark();
    changes(history, mark, met);
    pcs(dice, history, mark, met);
    if dice.chance(8) {
        unfit(dice, history, mark, met);
    }
    met.asked += 1;
    met.wrapped += u64::from(history.past.moments.len() > history.slots + 1);
    met.after_take_back += u64::from(history.taken_back);
    met.none_on_hand += u64::from(mark.on_hand == 0);
    met.all_on_hand += u64::from(history.slots > 0 && mark.on_hand as usize == history.slots);
}
