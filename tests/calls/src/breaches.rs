//! Each rule of document 01 broken alone, in every way that has an edge of its
//! own. A breach changes a valid image so that exactly one rule is broken, or
//! says that this image gives it no occasion.

use crate::dice::Dice;
use crate::fields::*;
use crate::valid::Case;

pub type Breach = (&'static str, fn(&mut Case, &mut Dice) -> bool);

pub const BREACHES: [Breach; 54] = [
    ("length word one less", |case, _| put(&mut case.length_word, LENGTH_WORD - 1)),
    ("length word one more", |case, _| put(&mut case.length_word, LENGTH_WORD + 1)),
    ("the version before", |case, _| put(&mut case.version, VERSION - 1)),
    ("the version behind", |case, _| put(&mut case.version, VERSION + 1)),
    ("Status outside its mask", |case, dice| outside(case, dice, STATUS, 0x1740_FF3F)),
    ("Cause outside its mask", |case, dice| outside(case, dice, CAUSE, 0xB000_FF7C)),
    ("ExcCode 13", |case, _| exc_code(case, 13)),
    ("ExcCode 14 to 31", |case, dice| exc_code(case, dice.between(14, 31))),
    ("IP[6] off, one pending", |case, _| {
        let without = case.words[CAUSE] & !(1 << 14);
        case.words[PENDING] != 0 && put(&mut case.words[CAUSE], without)
    }),
    ("IP[6] on, none pending", |case, _| case.words[PENDING] == 0 && line(case, 6)),
    ("IP[3] on, none pending", |case, _| line(case, 3)),
    ("IP[4] on", |case, _| line(case, 4)),
    ("IP[5] on", |case, _| line(case, 5)),
    ("IP[7] on", |case, _| line(case, 7)),
    ("Index outside its mask", |case, dice| outside(case, dice, INDEX, 0x8000_3F00)),
    ("Random 0", |case, _| put(&mut case.words[RANDOM], 0)),
    ("Random 16", |case, _| put(&mut case.words[RANDOM], 16 << 8)),
    ("Random 17 to 63", |case, dice| put(&mut case.words[RANDOM], dice.between(17, 63) << 8)),
    ("Random outside its field", |case, dice| outside(case, dice, RANDOM, 0x0000_3F00)),
    ("EntryHi outside its mask", |case, dice| outside(case, dice, ENTRY_HI, 0xFFFF_FFC0)),
    ("EntryLo outside its mask", |case, dice| outside(case, dice, ENTRY_LO, 0xFFFF_FF00)),
    ("a TLB high outside its mask", |case, dice| {
        let place = TLB + 2 * dice.below(16) as usize;
        outside(case, dice, place, 0xFFFF_FFC0)
    }),
    ("a TLB low outside its mask", |case, dice| {
        let place = TLB + 2 * dice.below(16) as usize + 1;
        outside(case, dice, place, 0xFFFF_FF00)
    }),
    ("time scale 0", |case, _| put(&mut case.words[TIME_SCALE], 0)),
    ("time scale 256", |case, _| put(&mut case.words[TIME_SCALE], 256)),
    ("printer delay 0", |case, _| {
        !(0..8).any(|printer| case.busy(printer)) && put(&mut case.words[PRINTER_DELAY], 0)
    }),
    ("printer delay 65,536", |case, _| put(&mut case.words[PRINTER_DELAY], 65_536)),
    ("installed map over 255", |case, dice| outside(case, dice, INSTALLED, 0xFF)),
    ("pending but not installed", |case, dice| {
        let printer = dice.below(8) as usize;
        !case.installed(printer) && make_pending(case, printer)
    }),
    ("pending map over 255", |case, dice| {
        let printer = dice.between(8, 31) as usize;
        make_pending(case, printer)
    }),
    ("not installed, STATUS not 0", |case, dice| uninstalled(case, dice, PRINTER_STATUS)),
    ("not installed, COMMAND not 0", |case, dice| uninstalled(case, dice, PRINTER_COMMAND)),
    ("not installed, DATA0 not 0", |case, dice| uninstalled(case, dice, PRINTER_DATA0)),
    ("not installed, ticks left not 0", |case, dice| uninstalled(case, dice, PRINTER_TICKS)),
    ("not installed, paper count not 0", |case, dice| {
        case.eighth != 0 && uninstalled(case, dice, PRINTER_COUNT)
    }),
    ("STATUS 0 or over 4", |case, dice| {
        let printer = dice.below(8) as usize;
        let status = if dice.chance(4) { dice.word() | 8 } else { dice.pick(&[0, 5, 6, 7]) };
        let idle = case.installed(printer) && !case.busy(printer);
        idle && put(case.printer_mut(printer, PRINTER_STATUS), status)
    }),
    ("busy, 0 ticks left", |case, dice| busy(case, dice, PRINTER_TICKS, |_, _| 0)),
    ("busy, one tick over the delay", |case, dice| {
        busy(case, dice, PRINTER_TICKS, |case, _| case.words[PRINTER_DELAY] + 1)
    }),
    ("busy, COMMAND 1", |case, dice| busy(case, dice, PRINTER_COMMAND, |_, _| 1)),
    ("busy, COMMAND over 2", |case, dice| {
        busy(case, dice, PRINTER_COMMAND, |_, dice| 3 + dice.word() / 2 * dice.below(2))
    }),
    ("busy and pending", |case, dice| {
        let printer = dice.below(8) as usize;
        case.busy(printer) && make_pending(case, printer)
    }),
    ("idle with ticks left", |case, dice| {
        let printer = dice.below(8) as usize;
        let ticks = 1 + dice.below(2) * (case.words[PRINTER_DELAY] - 1);
        let idle = case.installed(printer) && !case.busy(printer);
        idle && put(case.printer_mut(printer, PRINTER_TICKS), ticks)
    }),
    ("paper count over its eighth", |case, dice| {
        let printer = dice.below(8) as usize;
        let count = case.eighth + 1;
        case.installed(printer) && put(case.printer_mut(printer, PRINTER_COUNT), count)
    }),
    ("on hand over the slots", |case, _| put(&mut case.words[ON_HAND], case.slots + 1)),
    ("next slot behind the last", |case, _| {
        case.slots != 0 && put(&mut case.words[NEXT_SLOT], case.slots)
    }),
    ("next slot 1 without slots", |case, _| case.slots == 0 && put(&mut case.words[NEXT_SLOT], 1)),
    ("slot flag 2", |case, _| put(&mut case.words[SLOT_FLAG], 2)),
    ("slot flag over 2", |case, dice| {
        put(&mut case.words[SLOT_FLAG], 1 << dice.between(2, 31) | dice.below(2))
    }),
    ("a branch address without the flag", |case, dice| {
        let address = 1 << dice.below(32);
        case.words[SLOT_FLAG] == 0 && put(&mut case.words[BRANCH_ADDRESS], address)
    }),
    ("the flag gone, the branch address left", |case, _| {
        case.words[BRANCH_ADDRESS] != 0 && put(&mut case.words[SLOT_FLAG], 0)
    }),
    ("a disk over 7", |case, dice| put(&mut case.words[DISKS_INSTALLED], 1 << dice.between(8, 31))),
    ("a disk with STATUS 0", |case, dice| {
        put(&mut case.words[DISKS_INSTALLED], 1 << dice.below(8))
    }),
    ("a disk that is not installed is not 0", |case, dice| {
        let place = DISKS + dice.below(8 * DISK_WORDS as u32) as usize;
        put(&mut case.words[place], 1 << dice.below(32))
    }),
    ("a disk pending, none installed", |case, dice| {
        case.words[DISKS_PENDING] = 1 << dice.below(32);
        line(case, 3)
    }),
];

fn put<T>(place: &mut T, value: T) -> bool {
    *place = value;
    true
}

/// Turns on one of the bits that are not in the mask.
fn outside(case: &mut Case, dice: &mut Dice, place: usize, mask: u32) -> bool {
    let bit = 1 << dice.below(32);
    case.words[place] |= bit;
    bit & mask == 0
}

fn exc_code(case: &mut Case, code: u32) -> bool {
    let others = case.words[CAUSE] & !0x7C;
    put(&mut case.words[CAUSE], others | code << 2)
}

fn line(case: &mut Case, number: u32) -> bool {
    let others = case.words[CAUSE];
    put(&mut case.words[CAUSE], others | 1 << (8 + number))
}

/// Pending, and IP[6] with it, so that this rule is not broken as well.
fn make_pending(case: &mut Case, printer: usize) -> bool {
    case.words[PENDING] |= 1 << printer;
    line(case, 6)
}

fn uninstalled(case: &mut Case, dice: &mut Dice, place: usize) -> bool {
    let printer = dice.below(8) as usize;
    !case.installed(printer) && put(case.printer_mut(printer, place), 1)
}

fn busy(
    case: &mut Case,
    dice: &mut Dice,
    place: usize,
    value: fn(&Case, &mut Dice) -> u32,
) -> bool {
    let printer = dice.below(8) as usize;
    let value = value(case, dice);
    case.busy(printer) && put(case.printer_mut(printer, place), value)
}
