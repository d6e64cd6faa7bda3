//! Compares the first calls of the archive with the reference: reset, the
//! rules of the state image, and the two calls on the ROMs.
//!
//! `calls [SEED]`. Exit 0: all equal and all counts met; 1: not so.

#[allow(dead_code)]
#[path = "../../common/arguments.rs"]
mod arguments;
#[allow(dead_code)]
#[path = "../../common/dice.rs"]
mod dice;
#[path = "../../common/guarded.rs"]
mod guarded;
#[allow(dead_code)]
#[path = "../../common/lavushmir.rs"]
mod lavushmir;

mod archive;
mod breaches;
mod edges;
#[allow(dead_code)]
mod fields;
mod judge;
mod one_bit;
mod report;
mod reset;
mod rom;
mod rules;
mod seen;
mod valid;

use dice::Dice;

fn main() {
    let seed = arguments::seed();
    println!("calls: seed {seed}");
    // Each part has dice of its own, so that one can change without the rest.
    reset::compare(&mut Dice::new(seed));
    rules::compare(&mut Dice::new(seed.wrapping_add(1 << 60)));
    rom::compare(&mut Dice::new(seed.wrapping_add(2 << 60)));
    println!("calls: all equal");
}
