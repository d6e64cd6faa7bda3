//! What is done to packets, and bytes that never were one.

use crate::dice::Dice;
use crate::kinds::KINDS;
use crate::packet::framed;

/// How an input came to be.
#[derive(Clone, Copy, PartialEq, Eq, Debug)]
pub enum Sort {
    /// A packet of a kind, as it is.
    Whole,
    /// What it says is damaged, its sum right.
    Said,
    /// Its sum is wrong.
    Sum,
    /// Its bytes are damaged, `$`, `#` and sum among them.
    Bytes,
    /// No packet at all.
    Random,
    /// Longer than any buffer.
    Long,
    /// Several packets at once.
    Several,
}

pub const SORTS: [(Sort, &str); 7] = [
    (Sort::Whole, "whole packets"),
    (Sort::Said, "packets that say damaged things"),
    (Sort::Sum, "packets with a wrong sum"),
    (Sort::Bytes, "damaged packets"),
    (Sort::Random, "random bytes"),
    (Sort::Long, "long ones"),
    (Sort::Several, "several packets at once"),
];

pub struct Input {
    pub sort: Sort,
    /// The number of its kind, where it comes from one packet.
    pub kind: Option<usize>,
    pub bytes: Vec<u8>,
}

fn mutate(dice: &mut Dice, bytes: &mut Vec<u8>) {
    for _ in 0..dice.between(1, 3) {
        let at = dice.below(bytes.len().max(1) as u32) as usize;
        match dice.below(7) {
            0 if at < bytes.len() => bytes[at] = dice.below(256) as u8,
            1 if at < bytes.len() => bytes[at] ^= 1 << dice.below(8),
            2 if at < bytes.len() => {
                bytes.remove(at);
            }
            3 if at < bytes.len() => bytes.insert(at, bytes[at]),
            4 => bytes.truncate(at),
            5 => bytes.insert(at, dice.pick(b"$#}*,:;=+-0f\x03\x00\xFF")),
            _ => {
                let digits =
                    dice.pick(&["ffffffffffffffff", "00000000000000000001", "-1", "80000000"]);
                for byte in digits.bytes().rev() {
                    bytes.insert(at, byte);
                }
            }
        }
    }
}

/// Whether it can stand between `$` and `#` as it is.
fn is_plain(said: &[u8]) -> bool {
    !said.iter().any(|byte| matches!(byte, b'$' | b'#'))
}

fn one(dice: &mut Dice) -> (usize, Vec<u8>) {
    let kind = dice.below(KINDS.len() as u32) as usize;
    (kind, (KINDS[kind].said)(dice))
}

fn wrong_sum(dice: &mut Dice, said: &[u8]) -> Vec<u8> {
    let mut packet = framed(said);
    let at = packet.len() - 1 - dice.below(2) as usize;
    loop {
        let digit = dice.pick(b"0123456789abcdef");
        if digit != packet[at] {
            packet[at] = digit;
            return packet;
        }
    }
}

pub fn long(dice: &mut Dice) -> Vec<u8> {
    let near = dice.pick(&[0x4000, 0x4000, 65_536, 65_536, 40_000, 70_000]);
    let length = (near + dice.below(12) as usize).saturating_sub(6);
    match dice.below(12) {
        0 => dice.bytes(length),
        1 => vec![dice.pick(b"$+#}\x03a"); length],
        2..=5 => {
            let mut bytes = framed(&vec![dice.pick(b"mZqa0"); length - 4]);
            bytes.truncate(length + dice.below(2) as usize);
            bytes
        }
        _ => {
            let mut said = format!("X20000000,{:x}:", length - 30).into_bytes();
            said.resize(length - 4, dice.pick(b"ab\x00}"));
            framed(&said)
        }
    }
}

pub fn input(dice: &mut Dice) -> Input {
    let (kind, mut said) = one(dice);
    let of = |sort, bytes| Input { sort, kind: Some(kind), bytes };
    match dice.below(100) {
        0..=19 => of(Sort::Whole, framed(&said)),
        20..=49 => {
            mutate(dice, &mut said);
            said.retain(|byte| !matches!(byte, b'$' | b'#'));
            of(Sort::Said, framed(&said))
        }
        50..=59 => of(Sort::Sum, wrong_sum(dice, &said)),
        60..=84 => {
            let mut bytes = framed(&said);
            mutate(dice, &mut bytes);
            of(Sort::Bytes, bytes)
        }
        85..=93 => {
            let most = dice.pick(&[1, 8, 40, 300, 3_000]);
            let length = dice.below(most + 1) as usize;
            Input { sort: Sort::Random, kind: None, bytes: dice.bytes(length) }
        }
        94 if dice.chance(16) => Input { sort: Sort::Long, kind: None, bytes: long(dice) },
        _ => {
            let mut bytes = framed(&said);
            for _ in 0..dice.between(1, 5) {
                if dice.chance(6) {
                    bytes.push(dice.pick(b"+-\x03"));
                }
                bytes.extend(framed(&one(dice).1));
            }
            Input { sort: Sort::Several, kind: None, bytes }
        }
    }
}

/// What the bytes are from a clean start, where that is beyond doubt: exactly one
/// packet with nothing beside it.
#[derive(Clone, PartialEq, Eq, Debug)]
pub enum Clear {
    Right(Vec<u8>),
    Wrong,
    Unclear,
}

pub fn clear(bytes: &[u8]) -> Clear {
    let said = match bytes {
        [b'$', said @ .., b'#', _, _] if is_plain(said) => said,
        _ => return Clear::Unclear,
    };
    match crate::packet::sum_of(&bytes[bytes.len() - 2..]) {
        Some(sum) if sum == crate::packet::sum(said) => Clear::Right(said.to_vec()),
        Some(_) => Clear::Wrong,
        // Digits that are none: the sum can not be right, but how it is answered
        // is not said.
        None => Clear::Unclear,
    }
}
