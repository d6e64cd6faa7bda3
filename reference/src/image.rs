//! The state image: big-endian, in the present version or the one before it.

use crate::machine::{Disk, Entry, Machine, Printer};
use crate::printer::BUSY;
use crate::status::Status;

/// The words start behind the length word and the version byte.
const LENGTH_BYTES: usize = 4;
const FIRST_WORD: usize = LENGTH_BYTES + 1;

/// A version of the image. Each ends with the words that it adds to the one
/// before it.
pub(crate) struct Form {
    version: u8,
    words: usize,
}

pub(crate) const PRESENT: Form = Form { version: 3, words: 184 };
pub(crate) const BEFORE: Form = Form { version: 2, words: 126 };

pub const IMAGE_BYTES: usize = PRESENT.bytes();

/// The length of an image that `convert` takes.
pub const OLD_IMAGE_BYTES: usize = BEFORE.bytes();

impl Form {
    const fn bytes(&self) -> usize {
        FIRST_WORD + 4 * self.words
    }

    /// The length word, which counts the bytes behind it, and the version byte.
    fn head(&self) -> [u8; FIRST_WORD] {
        let [a, b, c, d] = ((self.bytes() - LENGTH_BYTES) as u32).to_be_bytes();
        [a, b, c, d, self.version]
    }

    /// Whether an image has the length and the head of this version.
    pub(crate) fn is_of(&self, image: &[u8]) -> bool {
        image.len() == self.bytes() && image[..FIRST_WORD] == self.head()
    }
}

struct Reader<'a>(std::slice::ChunksExact<'a, u8>);

impl Reader<'_> {
    fn word(&mut self) -> u32 {
        let bytes = self.0.next().expect("the image holds so many words");
        u32::from_be_bytes(bytes.try_into().expect("a chunk is four bytes"))
    }
}

struct Writer<'a>(std::slice::ChunksExactMut<'a, u8>);

impl Writer<'_> {
    fn word(&mut self, value: u32) {
        let bytes = self.0.next().expect("the image holds so many words");
        bytes.copy_from_slice(&value.to_be_bytes());
    }
}

/// Reads the words of an image, whether or not it keeps the rules.
pub fn decode(image: &[u8]) -> Machine {
    assert_eq!(image.len(), PRESENT.bytes());
    let mut from = Reader(image[FIRST_WORD..].chunks_exact(4));
    let mut machine = old_words(&mut from);
    disk_words(&mut machine, &mut from);
    machine
}

fn disk_words(machine: &mut Machine, from: &mut Reader) {
    machine.disks_installed = from.word();
    for (number, disk) in machine.disks.iter_mut().enumerate() {
        *disk = Disk {
            status: from.word(),
            command: from.word(),
            data0: from.word(),
            data1: from.word(),
            ticks_left: from.word(),
            words_left: from.word(),
            cylinder: from.word(),
        };
        if disk.status == BUSY {
            machine.disks_busy |= 1 << number;
        }
    }
    machine.disks_pending = from.word();
}

/// Reads the words of an image of the version before. What it lacks is 0.
pub(crate) fn decode_old(image: &[u8]) -> Machine {
    assert_eq!(image.len(), BEFORE.bytes());
    old_words(&mut Reader(image[FIRST_WORD..].chunks_exact(4)))
}

fn old_words(from: &mut Reader) -> Machine {
    let mut machine = Machine::default();
    processor_words(&mut machine, from);
    let clock_high = from.word();
    let clock_low = from.word();
    machine.clock = u64::from(clock_high) << 32 | u64::from(clock_low);
    machine.timer = from.word();
    machine.time_scale = from.word();
    machine.printer_delay = from.word();
    printer_words(&mut machine, from);
    machine.on_hand = from.word();
    machine.next_slot = from.word();
    machine.slot_flag = from.word();
    machine.branch_address = from.word();
    machine
}

fn processor_words(machine: &mut Machine, from: &mut Reader) {
    for register in &mut machine.registers[1..] {
        *register = from.word();
    }
    machine.hi = from.word();
    machine.lo = from.word();
    machine.pc = from.word();
    machine.next_pc = from.word();
    machine.index = from.word();
    machine.random = from.word();
    machine.entry_hi = from.word();
    machine.entry_lo = from.word();
    machine.bad_vaddr = from.word();
    machine.status = Status(from.word());
    machine.cause = from.word();
    machine.epc = from.word();
    for entry in &mut machine.tlb {
        *entry = Entry { high: from.word(), low: from.word() };
    }
}

fn printer_words(machine: &mut Machine, from: &mut Reader) {
    machine.installed = from.word();
    for (number, printer) in machine.printers.iter_mut().enumerate() {
        *printer = Printer {
            status: from.word(),
            command: from.word(),
            data0: from.word(),
            ticks_left: from.word(),
            paper_count: from.word(),
        };
        if printer.status == BUSY {
            machine.busy |= 1 << number;
        }
    }
    machine.pending = from.word();
}

/// Writes a whole image of the present version.
pub fn encode(machine: &Machine, image: &mut [u8]) {
    assert_eq!(image.len(), PRESENT.bytes());
    image[..FIRST_WORD].copy_from_slice(&PRESENT.head());
    let mut to = Writer(image[FIRST_WORD..].chunks_exact_mut(4));
    write_processor(machine, &mut to);
    to.word((machine.clock >> 32) as u32);
    to.word(machine.clock as u32);
    to.word(machine.timer);
    to.word(machine.time_scale);
    to.word(machine.printer_delay);
    write_printers(machine, &mut to);
    to.word(machine.on_hand);
    to.word(machine.next_slot);
    to.word(machine.slot_flag);
    to.word(machine.branch_address);
    write_disks(machine, &mut to);
}

fn write_processor(machine: &Machine, to: &mut Writer) {
    for register in &machine.registers[1..] {
        to.word(*register);
    }
    to.word(machine.hi);
    to.word(machine.lo);
    to.word(machine.pc);
    to.word(machine.next_pc);
    to.word(machine.index);
    to.word(machine.random);
    to.word(machine.entry_hi);
    to.word(machine.entry_lo);
    to.word(machine.bad_vaddr);
    to.word(machine.status.0);
    to.word(machine.cause);
    to.word(machine.epc);
    for entry in &machine.tlb {
        to.word(entry.high);
        to.word(entry.low);
    }
}

fn write_printers(machine: &Machine, to: &mut Writer) {
    to.word(machine.installed);
    for printer in &machine.printers {
        to.word(printer.status);
        to.word(printer.command);
        to.word(printer.data0);
        to.word(printer.ticks_left);
        to.word(printer.paper_count);
    }
    to.word(machine.pending);
}

fn write_disks(machine: &Machine, to: &mut Writer) {
    to.word(machine.disks_installed);
    for disk in &machine.disks {
        to.word(disk.status);
        to.word(disk.command);
        to.word(disk.data0);
        to.word(disk.data1);
        to.word(disk.ticks_left);
        to.word(disk.words_left);
        to.word(disk.cylinder);
    }
    to.word(machine.disks_pending);
}
