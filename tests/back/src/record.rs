//! The words of a record, written from docs/RECORD.md and not taken from the
//! reference.

use reference::Machine;

pub const RECORD_BYTES: usize = 512;
pub const WORDS: usize = 128;

pub const PC: usize = 2;
pub const NEXT_PC: usize = 3;
pub const INDEX: usize = 4;
pub const RANDOM: usize = 5;
pub const ENTRY_HI: usize = 6;
pub const ENTRY_LO: usize = 7;
pub const STATUS: usize = 9;
pub const CAUSE: usize = 10;
pub const EPC: usize = 11;
pub const SLOT_FLAG: usize = 12;
pub const BRANCH_ADDRESS: usize = 13;
pub const TIMER: usize = 14;
pub const PENDING: usize = 15;
pub const PRINTED: usize = 16;
pub const KIND: usize = 59;
pub const WHICH: usize = 60;
pub const OLD: usize = 61;
pub const OLD_LOW: usize = 62;
/// Of a RAM word, in the place of OLD_LOW.
pub const DISTANCE: usize = 62;
/// Of a disk's word, in the place of OLD_LOW.
pub const OLD_STATUS: usize = 62;
pub const DISKS_PENDING: usize = 63;
/// The first of those that hold nothing.
pub const UNUSED: usize = 100;

/// The byte at which the eight old bytes of paper start.
pub const PAPER_BYTES: usize = 68;

pub const NOTHING: u32 = 0;
pub const REGISTER: u32 = 1;
pub const ROW: u32 = 2;
pub const RAM_WORD: u32 = 3;
pub const DISK_WORD: u32 = 4;

/// How a disk read a word into RAM.
pub const READ: u32 = 2;

// Places within the four words of a disk.
pub const HOW: usize = 0;
pub const LEFT: usize = 1;
pub const PLACE: usize = 2;
pub const BYTES: usize = 3;

/// Words that no rule looks at: HI, LO, PC, next PC, BadVAddr, EPC, timer.
pub const FREE: [usize; 7] = [0, 1, PC, NEXT_PC, 8, EPC, TIMER];

pub const PRINTER_STATUS: usize = 0;
pub const COMMAND: usize = 1;
pub const DATA0: usize = 2;
pub const TICKS: usize = 3;
pub const COUNT: usize = 4;

/// The place of one of a printer's five words.
pub const fn printer(number: usize, field: usize) -> usize {
    19 + 5 * number + field
}

/// The place of one of a disk's four words.
pub const fn disk(number: usize, field: usize) -> usize {
    64 + 4 * number + field
}

/// The byte at which a disk's distance starts, of two bytes.
pub const fn disk_distance(number: usize) -> usize {
    4 * 96 + 2 * number
}

/// The offset in the device area of a disk's COMMAND or DATA0 (4, 8).
pub const fn disk_register(number: u32, field: u32) -> u32 {
    0x50 + 0x10 * number + field
}

pub fn word(record: &[u8], place: usize) -> u32 {
    let four = &record[4 * place..][..4];
    u32::from_le_bytes([four[0], four[1], four[2], four[3]])
}

pub fn set(record: &mut [u8], place: usize, value: u32) {
    record[4 * place..][..4].copy_from_slice(&value.to_le_bytes());
}

/// The record of a step that overwrites nothing but the words saved in every
/// step, and finds the machine like this.
pub fn plain(machine: &Machine) -> [u8; RECORD_BYTES] {
    let mut record = [0; RECORD_BYTES];
    let first = [
        machine.hi,
        machine.lo,
        machine.pc,
        machine.next_pc,
        machine.index,
        machine.random,
        machine.entry_hi,
        machine.entry_lo,
        machine.bad_vaddr,
        machine.status.0,
        machine.cause,
        machine.epc,
        machine.slot_flag,
        machine.branch_address,
        machine.timer,
        machine.pending,
    ];
    for (place, value) in first.into_iter().enumerate() {
        set(&mut record, place, value);
    }
    for (number, it) in machine.printers.iter().enumerate() {
        let five = [it.status, it.command, it.data0, it.ticks_left, it.paper_count];
        for (field, value) in five.into_iter().enumerate() {
            set(&mut record, printer(number, field), value);
        }
    }
    set(&mut record, DISKS_PENDING, machine.disks_pending);
    record
}

/// The slots of the newest records, the newest first, going round.
pub fn newest(next_slot: u32, slots: usize, count: usize) -> impl Iterator<Item = usize> {
    let start = next_slot as usize + slots;
    (1..=count).map(move |age| (start - age) % slots)
}

pub fn at(journal: &[u8], slot: usize) -> &[u8] {
    &journal[RECORD_BYTES * slot..][..RECORD_BYTES]
}
