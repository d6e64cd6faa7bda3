//! What qemu-mipsel said of a program.

use crate::session::End;
use std::fs::{read, read_to_string};
use std::path::Path;

pub struct Expected {
    pub output: Vec<u8>,
    status: u32,
}

/// A program that ends in a trap: its name, the shell's numbers for the signals
/// that qemu may have for it, and document 01's code.
const TRAPS: [(&str, &[u32], u32); 7] = [
    ("ends1", &[133, 136], 9),
    ("ends2", &[136], 12),
    ("ends3", &[139], 7),
    ("ends4", &[139], 6),
    ("ends5", &[133], 9),
    ("ends6", &[132], 10),
    ("ends7", &[132], 11),
];

impl Expected {
    pub fn read(folder: &Path, name: &str) -> Expected {
        let output = read(folder.join(format!("{name}.out"))).expect("qemu's output");
        let status = read_to_string(folder.join(format!("{name}.status"))).expect("qemu's end");
        Expected { output, status: status.trim().parse().expect("a number") }
    }

    /// An error if qemu itself did not end as the program is meant to.
    pub fn end(&self, name: &str) -> Result<End, String> {
        match TRAPS.iter().find(|(start, _, _)| name.starts_with(start)) {
            Some((_, signals, code)) if signals.contains(&self.status) => Ok(End::Exception(*code)),
            None if self.status < 64 => Ok(End::Exit(self.status)),
            _ => Err(format!("under qemu-mipsel it ended with status {}", self.status)),
        }
    }
}
