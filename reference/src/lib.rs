//! A plain emulator of the machine of document 01, with requests L2, L4, L5 and L6
//! of document 02, written from these papers, the manual and the MIPS I instruction
//! set only. It is the yardstick for other emulators of the same machine, in
//! results and in speed.

mod address;
mod alu;
mod answer;
mod branch;
mod bus;
mod calls;
mod checkpoint;
mod clock;
mod convert;
mod cp0;
mod disk;
pub mod diskless;
mod exception;
mod execute;
mod geometry;
mod give_back;
mod history;
mod image;
mod index;
mod journal;
mod last_write;
pub mod layout;
mod layout_disks;
mod load_store;
mod look;
mod machine;
mod memory;
mod pages;
mod places;
mod printer;
mod record;
mod record_disks;
mod reset;
mod rom;
mod rules;
mod sizes;
mod status;
mod step;
mod take_back;
mod tlb;
mod transfer;
mod undo;
mod word;
mod writer;

pub use answer::{Answer, BUDGET_SPENT, EXCEPTION, NO_REASON, TWO_MATCHES};
pub use calls::{run, run_recorded};
pub use convert::convert;
pub use history::History;
pub use image::{decode, encode, IMAGE_BYTES, OLD_IMAGE_BYTES};
pub use journal::run_with_records;
pub use last_write::{last_write, LAST_WRITE_BYTES};
pub use look::step_meets_two;
pub use machine::{Disk, Entry, Machine, Printer};
pub use memory::{no_disks, Memory};
pub use record::{NoRecord, Recorder};
pub use reset::reset;
pub use rom::{rom_answer, rom_window};
pub use rules::keeps_rules;
pub use status::Status;
pub use step::step;
pub use take_back::take_back;
