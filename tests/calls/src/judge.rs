//! One image before both judges of the rules.

use crate::archive;
use crate::fields::*;
use crate::guarded::Guarded;
use crate::report::{different, hex, plain, said};
use crate::valid::Case;

const PROGRESS: u64 = 250_000;

/// The verdicts of both, counted.
#[derive(Default)]
pub struct Judge {
    pub images: u64,
    pub kept: u64,
    pub broke: u64,
}

impl Judge {
    /// Both verdicts, which have to be equal, and equal to `expected` where
    /// the test knows it without asking the reference.
    pub fn verdict(
        &mut self,
        bytes: &[u8],
        paper: u64,
        journal: u64,
        expected: Option<bool>,
        what: &dyn Fn() -> String,
    ) -> bool {
        // RAM's length counts for disks at work alone.
        let reference = reference::keeps_rules(bytes, 4_096, paper as usize, journal as usize)
            && !has_disk(bytes);
        let archive = archive::rules(&Guarded::new(bytes), paper, journal);
        let right = archive == Ok(u64::from(reference));
        if !right || expected.unwrap_or(reference) != reference {
            different("rules", &lines(bytes, paper, journal, &archive, reference, expected, what));
        }
        self.images += 1;
        if reference {
            self.kept += 1;
        } else {
            self.broke += 1;
        }
        if self.images % PROGRESS == 0 {
            println!("rules: {} images so far", self.images);
        }
        reference
    }

    pub fn case(&mut self, case: &Case, expected: Option<bool>, what: &dyn Fn() -> String) -> bool {
        self.verdict(&case.bytes(), case.paper(), case.journal(), expected, what)
    }
}

fn lines(
    bytes: &[u8],
    paper: u64,
    journal: u64,
    archive: &Result<u64, String>,
    reference: bool,
    expected: Option<bool>,
    what: &dyn Fn() -> String,
) -> Vec<String> {
    let mut lines = vec![
        format!("image: {} bytes, {}", bytes.len(), what()),
        format!("paper: {paper} bytes, journal: {journal} bytes"),
        format!("archive:   {} (1 keeps the rules, 0 does not)", said(archive, plain)),
        format!("reference: {}", u64::from(reference)),
    ];
    if let Some(expected) = expected {
        lines.push(format!("expected:  {}", u64::from(expected)));
    }
    lines.push(format!("all bytes: {}", hex(bytes)));
    if bytes.len() == IMAGE_BYTES {
        for (place, word) in bytes[FIRST_WORD..].chunks_exact(4).enumerate() {
            if word != [0; 4] && place >= INDEX {
                lines.push(format!("{} = 0x{}", word_name(place), hex(word)));
            }
        }
    }
    lines
}
