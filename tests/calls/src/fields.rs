//! The layout of the state image, written from documents 01 and 02 and not taken
//! from the reference: places of words, and names for every byte.

pub const VERSION: u8 = 3;
pub const WORDS: usize = 184;

/// The words lie behind the length word and the version byte.
pub const FIRST_WORD: usize = 5;

pub const IMAGE_BYTES: usize = FIRST_WORD + 4 * WORDS;
pub const IMAGE_BITS: usize = IMAGE_BYTES * 8;
pub const LENGTH_WORD: u32 = IMAGE_BYTES as u32 - 4;

/// The version before: without the words of the disks.
pub const OLD_VERSION: u8 = 2;
pub const OLD_IMAGE_BYTES: usize = FIRST_WORD + 4 * DISKS_INSTALLED;
pub const OLD_LENGTH_WORD: u32 = OLD_IMAGE_BYTES as u32 - 4;

/// A slot of the journal, and one of the journals beside the version before.
pub const RECORD_BYTES: usize = 512;
pub const OLD_RECORD_BYTES: usize = 256;

// Places of words, counted from the first word.
pub const INDEX: usize = 35;
pub const RANDOM: usize = 36;
pub const ENTRY_HI: usize = 37;
pub const ENTRY_LO: usize = 38;
pub const STATUS: usize = 40;
pub const CAUSE: usize = 41;
pub const TLB: usize = 43;
pub const TIME_SCALE: usize = 78;
pub const PRINTER_DELAY: usize = 79;
pub const INSTALLED: usize = 80;
pub const PRINTERS: usize = 81;
pub const PENDING: usize = 121;
pub const ON_HAND: usize = 122;
pub const NEXT_SLOT: usize = 123;
pub const SLOT_FLAG: usize = 124;
pub const BRANCH_ADDRESS: usize = 125;
pub const DISKS_INSTALLED: usize = 126;
pub const DISKS: usize = 127;
pub const DISKS_PENDING: usize = 183;

// Places within the five words of a printer.
pub const PRINTER_STATUS: usize = 0;
pub const PRINTER_COMMAND: usize = 1;
pub const PRINTER_DATA0: usize = 2;
pub const PRINTER_TICKS: usize = 3;
pub const PRINTER_COUNT: usize = 4;
pub const PRINTER_WORDS: usize = 5;

/// STATUS, the first of a disk's words, and how many they are.
pub const DISK_STATUS: usize = 0;
pub const DISK_WORDS: usize = 7;

/// What changing one bit of a field of a valid image does to the rules.
#[derive(Clone, Copy, PartialEq, Eq)]
pub enum OneBit {
    /// No rule looks at the field.
    NeverBreaks,
    AlwaysBreaks,
    /// It depends on the bit or on the rest of the image.
    Either,
}

use OneBit::{AlwaysBreaks, Either, NeverBreaks};

pub struct Field {
    pub name: &'static str,
    pub one_bit: OneBit,
}

const fn field(name: &'static str, one_bit: OneBit) -> Field {
    Field { name, one_bit }
}

/// STATUS and the installed map: between two allowed values more than one bit
/// differs, or another word has to change as well. Those of the disks: there are
/// none, and all their words are 0.
pub const FIELDS: [Field; 42] = [
    field("length word", AlwaysBreaks),
    field("version", AlwaysBreaks),
    field("registers", NeverBreaks),
    field("HI", NeverBreaks),
    field("LO", NeverBreaks),
    field("PC", NeverBreaks),
    field("next PC", NeverBreaks),
    field("Index", Either),
    field("Random", Either),
    field("EntryHi", Either),
    field("EntryLo", Either),
    field("BadVAddr", NeverBreaks),
    field("Status", Either),
    field("Cause", Either),
    field("EPC", NeverBreaks),
    field("TLB high", Either),
    field("TLB low", Either),
    field("clock high", NeverBreaks),
    field("clock low", NeverBreaks),
    field("timer", NeverBreaks),
    field("time scale", Either),
    field("printer delay", Either),
    field("installed map", AlwaysBreaks),
    field("printer STATUS", AlwaysBreaks),
    field("printer COMMAND", Either),
    field("printer DATA0", Either),
    field("printer ticks left", Either),
    field("printer paper count", Either),
    field("pending map", Either),
    field("steps on hand", Either),
    field("next slot", Either),
    field("slot flag", Either),
    field("branch address", Either),
    field("disks' installed map", AlwaysBreaks),
    field("disk STATUS", AlwaysBreaks),
    field("disk COMMAND", AlwaysBreaks),
    field("disk DATA0", AlwaysBreaks),
    field("disk DATA1", AlwaysBreaks),
    field("disk ticks left", AlwaysBreaks),
    field("disk words left", AlwaysBreaks),
    field("disk cylinder", AlwaysBreaks),
    field("disks' pending map", AlwaysBreaks),
];

const FIRST_REGISTER_FIELD: usize = 2;
const FIRST_SINGLE_FIELD: usize = 3;
const FIRST_TLB_FIELD: usize = 15;
const FIRST_CLOCK_FIELD: usize = 17;
const FIRST_PRINTER_FIELD: usize = 23;
const FIRST_LAST_FIELD: usize = 28;
const FIRST_DISK_FIELD: usize = 34;
const LAST_FIELD: usize = 41;

const REGISTERS: usize = 31;
const CLOCK: usize = 75;

/// The head of an image with this length word and version.
pub fn head(length_word: u32, version: u8) -> [u8; FIRST_WORD] {
    let [a, b, c, d] = length_word.to_be_bytes();
    [a, b, c, d, version]
}

/// Puts 0 in steps on hand and next slot, which are never taken from a record.
pub fn clear_journal_place(image: &mut [u8]) {
    image[FIRST_WORD + 4 * ON_HAND..FIRST_WORD + 4 * (NEXT_SLOT + 1)].fill(0);
}

/// Whether a disk is installed. The archive has none yet, and refuses such images.
pub fn has_disk(image: &[u8]) -> bool {
    let map = image.get(FIRST_WORD + 4 * DISKS_INSTALLED..FIRST_WORD + 4 * DISKS);
    map.map_or(false, |map| map != [0; 4])
}

/// Whether two images are equal but for these two words.
pub fn same_but_journal_place(one: &[u8], other: &[u8]) -> bool {
    let cleared = |image: &[u8]| {
        let mut image = image.to_vec();
        clear_journal_place(&mut image);
        image
    };
    cleared(one) == cleared(other)
}

/// The field in FIELDS that a byte of the image belongs to.
pub fn field_of(byte: usize) -> usize {
    if byte < 4 {
        return 0;
    }
    if byte < FIRST_WORD {
        return 1;
    }
    let word = (byte - FIRST_WORD) / 4;
    if word < REGISTERS {
        FIRST_REGISTER_FIELD
    } else if word < TLB {
        FIRST_SINGLE_FIELD + word - REGISTERS
    } else if word < CLOCK {
        FIRST_TLB_FIELD + (word - TLB) % 2
    } else if word < PRINTERS {
        FIRST_CLOCK_FIELD + word - CLOCK
    } else if word < PENDING {
        FIRST_PRINTER_FIELD + (word - PRINTERS) % PRINTER_WORDS
    } else if word < DISKS {
        FIRST_LAST_FIELD + word - PENDING
    } else if word < DISKS_PENDING {
        FIRST_DISK_FIELD + (word - DISKS) % DISK_WORDS
    } else {
        LAST_FIELD
    }
}

/// A word of the image, counted from the first word, with the number of its
/// register, TLB pair, printer or disk.
pub fn word_name(word: usize) -> String {
    let name = FIELDS[field_of(FIRST_WORD + 4 * word)].name;
    if word < REGISTERS {
        format!("{name}, number {}", word + 1)
    } else if (TLB..CLOCK).contains(&word) {
        format!("{name}, number {}", (word - TLB) / 2)
    } else if (PRINTERS..PENDING).contains(&word) {
        format!("{name}, number {}", (word - PRINTERS) / PRINTER_WORDS)
    } else if (DISKS..DISKS_PENDING).contains(&word) {
        format!("{name}, number {}", (word - DISKS) / DISK_WORDS)
    } else {
        name.to_string()
    }
}

pub fn byte_name(byte: usize) -> String {
    if byte >= IMAGE_BYTES {
        return format!("byte {byte} (behind the image)");
    }
    if byte < FIRST_WORD {
        return format!("byte {byte} ({})", FIELDS[field_of(byte)].name);
    }
    let (word, place) = ((byte - FIRST_WORD) / 4, (byte - FIRST_WORD) % 4);
    let lowest_bit = 24 - 8 * place;
    format!("byte {byte} ({}, bits {lowest_bit} to {})", word_name(word), lowest_bit + 7)
}
