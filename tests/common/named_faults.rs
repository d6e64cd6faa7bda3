//! What is wrong on purpose, in the place of what is tested. Each must be noticed.

use std::fmt::Debug;

/// `Fault`, one of the names, and `FAULTS`, all of them.
macro_rules! faults {
    ($($name:ident,)*) => {
        #[derive(Clone, Copy, PartialEq, Eq, Debug)]
        pub enum Fault {
            $($name,)*
        }

        pub const FAULTS: &[Fault] = &[$(Fault::$name,)*];
    };
}

pub(crate) use faults;

/// As words: PcMoves is "pc moves".
pub fn words(fault: impl Debug) -> String {
    let mut text = String::new();
    for letter in format!("{fault:?}").chars() {
        if letter.is_ascii_uppercase() && !text.is_empty() {
            text.push(' ');
        }
        text.push(letter.to_ascii_lowercase());
    }
    text
}
