//! Names for the bytes of the journal, the index, RAM and paper, by
//! docs/RECORD.md.

use crate::look::RAM;
use reference::layout::{
    DISKS, DISKS_PENDING, DISK_WORDS, DISTANCES, KIND, PAPER_BYTES, PRINTED, PRINTERS,
    PRINTER_WORDS, RECORD_BYTES, UNUSED,
};

const LAST_PAPER_BYTE: usize = PAPER_BYTES + 7;

/// The words before those of the paper and the printers.
const FIRST: [&str; PRINTED + 1] = [
    "HI",
    "LO",
    "PC",
    "next PC",
    "Index",
    "Random",
    "EntryHi",
    "EntryLo",
    "BadVAddr",
    "Status",
    "Cause",
    "EPC",
    "slot flag",
    "branch address",
    "timer",
    "pending map",
    "printers that wrote",
];

const PRINTER: [&str; PRINTER_WORDS] = ["STATUS", "COMMAND", "DATA0", "ticks left", "paper count"];

/// From the kind on, and the disks' pending map behind them.
const KINDS: [&str; DISKS - KIND] =
    ["kind", "which", "old", "old low, distance or STATUS", "disks' pending map"];

const DISK: [&str; DISK_WORDS] = ["how, cylinder", "ticks and words left", "RAM place", "bytes"];

fn record_byte(byte: usize) -> String {
    let word = byte / 4;
    match word {
        0..=PRINTED => FIRST[word].to_string(),
        _ if byte <= LAST_PAPER_BYTE => format!("paper byte of printer {}", byte - PAPER_BYTES),
        PRINTERS..KIND => {
            let place = word - PRINTERS;
            format!("printer {}'s {}", place / PRINTER_WORDS, PRINTER[place % PRINTER_WORDS])
        }
        KIND..=DISKS_PENDING => KINDS[word - KIND].to_string(),
        DISKS..DISTANCES => {
            let place = word - DISKS;
            format!("disk {}'s {}", place / DISK_WORDS, DISK[place % DISK_WORDS])
        }
        DISTANCES..UNUSED => format!("disk {}'s distance", (byte - 4 * DISTANCES) / 2),
        _ => "unused".to_string(),
    }
}

pub fn journal_byte(place: usize) -> String {
    let (slot, byte) = (place / RECORD_BYTES, place % RECORD_BYTES);
    format!("journal, slot {slot}, byte {byte} (word {}, {})", byte / 4, record_byte(byte))
}

pub fn index_byte(place: usize) -> String {
    let words = ["named", "clock high", "clock low", "0"];
    format!("index, frame {}, byte {} ({})", place / 16, place % 16, words[place % 16 / 4])
}

pub fn ram_byte(place: usize) -> String {
    format!("RAM, byte {place} (address {:#010x})", RAM as usize + place)
}

pub fn paper_byte(place: usize, length: usize) -> String {
    let eighth = length / 8;
    format!("paper, byte {place} (printer {}, its byte {})", place / eighth, place % eighth)
}
