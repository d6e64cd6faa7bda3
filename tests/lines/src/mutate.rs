//! Lines that are a little wrong, and lines of anything.

use crate::dice::Dice;
use crate::make;

/// Bytes on which something in the language turns.
const EDGES: &[u8] = b"  \t\r\n\0\x1F!#/0019afgxXAFGpiesrn-\x7F\x80\xFF";

fn byte(dice: &mut Dice) -> u8 {
    if dice.chance(3) {
        dice.below(256) as u8
    } else {
        dice.pick(EDGES)
    }
}

fn place(dice: &mut Dice, length: usize) -> usize {
    dice.below(length as u32) as usize
}

/// The words of a line with the spaces behind each, so that none is lost.
fn words(line: &[u8]) -> Vec<Vec<u8>> {
    line.split_inclusive(|&byte| byte == b' ').map(<[u8]>::to_vec).collect()
}

fn words_moved(dice: &mut Dice, line: &mut Vec<u8>) {
    let mut parts = words(line);
    if parts.len() < 2 {
        return;
    }
    let (one, other) = (place(dice, parts.len()), place(dice, parts.len()));
    match dice.below(3) {
        0 => parts.swap(one, other),
        1 => parts.insert(one, parts[other].clone()),
        _ => drop(parts.remove(one)),
    }
    *line = parts.concat();
}

fn once(dice: &mut Dice, line: &mut Vec<u8>) {
    let length = line.len();
    let other = byte(dice);
    match dice.below(10) {
        0..=2 if length > 0 => line[place(dice, length)] = other,
        3 | 4 if length > 0 => drop(line.remove(place(dice, length))),
        5 if length > 0 => {
            let at = place(dice, length);
            line[at] ^= 0x20;
        }
        6 => line.extend_from_slice(&[b' ', other]),
        7 | 8 if length > 1 => words_moved(dice, line),
        _ => line.insert(place(dice, length + 1), other),
    }
}

pub fn line(dice: &mut Dice) -> Vec<u8> {
    let mut line = make::line(dice);
    for _ in 0..dice.between(1, 3) {
        once(dice, &mut line);
    }
    line
}

/// Parts of two lines, one behind the other.
pub fn spliced(dice: &mut Dice) -> Vec<u8> {
    let (mut one, other) = (make::line(dice), make::line(dice));
    one.truncate(place(dice, one.len() + 1));
    one.extend_from_slice(&other[place(dice, other.len() + 1)..]);
    one
}

pub fn random(dice: &mut Dice) -> Vec<u8> {
    let most = if dice.chance(50) { 1_024 } else { 12 };
    let length = dice.below(most) as usize;
    if dice.chance(2) {
        return dice.bytes(length);
    }
    (0..length).map(|_| byte(dice)).collect()
}
