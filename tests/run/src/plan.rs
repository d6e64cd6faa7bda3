//! What the registers hold at the start of a run: registers.rs fills them, and
//! the random words aim with them.

/// The base of the device area.
pub const DEVICES: u32 = 1;

/// The first printer's words.
pub const PRINTERS: u32 = 2;

/// From here on places in RAM.
pub const FIRST_RAM: u32 = 3;
pub const LAST_RAM: u32 = 5;

/// Edges, ROMs, pages, and places one bit from something.
pub const FIRST_OTHER: u32 = 6;
pub const LAST_BASE: u32 = 11;

/// Places in the code.
pub const FIRST_CODE: u32 = 12;
pub const LAST_CODE: u32 = 13;

/// Small numbers, among them the commands of a printer.
pub const FIRST_NUMBER: u32 = 14;
pub const LAST_NUMBER: u32 = 17;

/// The extremes of arithmetic.
pub const FIRST_EXTREME: u32 = 18;
pub const LAST_EXTREME: u32 = 19;

/// The registers of the handlers; 27 holds what a refill puts into EntryLo.
pub const REFILL: u32 = 27;
