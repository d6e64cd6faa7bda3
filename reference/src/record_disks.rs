//! What a step's record keeps of the disks that are at work. All of it can be seen
//! before the step is taken, and is what was there before the step.

use crate::geometry::{READBLK, WRITEBLK};
use crate::layout::*;
use crate::machine::{Disk, Entry, Machine};
use crate::memory::Memory;
use crate::printer::BUSY;
use crate::record::Recorder;
use crate::writer::RecordWriter;

/// The slot of the step that is being taken, with disks at work. It is a recorder of
/// its own, so that a step without them does not ask for them.
pub struct DiskRecordWriter<'a>(RecordWriter<'a>);

impl<'a> DiskRecordWriter<'a> {
    pub fn start(
        record: &'a mut Record,
        machine: &Machine,
        memory: &Memory,
    ) -> DiskRecordWriter<'a> {
        let writer = RecordWriter::start(record, machine);
        for number in 0..8 {
            if machine.disks_busy >> number & 1 != 0 {
                let part = part(&machine.disks[number], memory.ram, memory.disks[number]);
                set_disk_part(writer.record, number, part);
            }
        }
        DiskRecordWriter(writer)
    }
}

impl Recorder for DiskRecordWriter<'_> {
    fn register(&mut self, number: u32, old: u32) {
        self.0.register(number, old);
    }

    fn tlb_row(&mut self, number: usize, old: Entry) {
        self.0.tlb_row(number, old);
    }

    fn ram_word(&mut self, place: usize, old: u32) {
        let old = before_transfers(self.0.record, place, old);
        self.0.ram_word(place, old);
    }

    fn disk_word(&mut self, disk: usize, offset: u32, old: u32, status: u32) {
        let status = status_before(self.0.record, disk, status);
        self.0.disk_word(disk, offset, old, status);
    }

    fn paper_byte(&mut self, printer: usize, place: usize, old: u8) {
        self.0.paper_byte(printer, place, old);
    }
}

fn part(disk: &Disk, ram: &[u8], bytes: &[u8]) -> DiskPart {
    let still = DiskPart {
        how: MOVED_NO_WORD,
        cylinder: disk.cylinder,
        ticks_left: disk.ticks_left,
        words_left: disk.words_left,
        ..DiskPart::default()
    };
    match disk.code() {
        READBLK => {
            let place = disk.place_in_ram();
            let bytes = four(ram, place);
            DiskPart { how: READ_A_WORD, place: place as u32, bytes, ..still }
        }
        WRITEBLK => {
            let bytes = four(bytes, disk.place_on_disk() as usize);
            DiskPart { how: WROTE_A_WORD, bytes, ..still }
        }
        _ => still,
    }
}

/// In the order of their places, as the record has them.
fn four(from: &[u8], place: usize) -> u32 {
    u32::from_le_bytes(from[place..place + 4].try_into().expect("four bytes"))
}

/// A word that a store finds: the one before the step, where a disk has read
/// another into its place since.
fn before_transfers(record: &Record, place: usize, found: u32) -> u32 {
    (0..8)
        .map(|number| disk_part(record, number))
        .find(|part| part.how == READ_A_WORD && part.place as usize == place)
        .map_or(found, |part| part.bytes)
}

/// The STATUS of a disk before the step; it may have finished in the tick.
fn status_before(record: &Record, number: usize, found: u32) -> u32 {
    if disk_part(record, number).how == NOT_AT_WORK {
        found
    } else {
        BUSY
    }
}
