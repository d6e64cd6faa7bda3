//! Lines that ask for something, one of each form, in many spellings.

use crate::dice::Dice;
use crate::lines::FORMS;

const SETTINGS: [&str; 6] = ["ram", "paper", "journal", "scale", "delay", "printers"];

fn gap(dice: &mut Dice) -> Vec<u8> {
    let most = if dice.chance(20) { 40 } else { 3 };
    vec![b' '; if dice.chance(3) { dice.between(1, most) as usize } else { 1 }]
}

fn with_zeros(dice: &mut Dice, digits: String) -> String {
    let most = if dice.chance(20) { 90 } else { 3 };
    let zeros = if dice.chance(5) { dice.between(1, most) as usize } else { 0 };
    "0".repeat(zeros) + &digits
}

fn any_case(dice: &mut Dice, digits: String) -> String {
    let letters = digits.chars();
    letters.map(|c| if dice.chance(2) { c.to_ascii_uppercase() } else { c }).collect()
}

/// Mostly one that is not too large.
pub fn decimal(dice: &mut Dice) -> String {
    let value = match dice.below(24) {
        0 => u128::from(u64::MAX),
        1 => u128::from(u64::MAX) + 1 + u128::from(dice.below(12)),
        2 => u128::from(u64::MAX) - u128::from(dice.below(12)),
        3 => u128::from(dice.long()) << dice.between(1, 60),
        _ => u128::from(dice.any_size()),
    };
    let digits = with_zeros(dice, value.to_string());
    if dice.chance(60) {
        return digits + &value.to_string().repeat(dice.between(1, 12) as usize);
    }
    digits
}

fn number(dice: &mut Dice) -> String {
    if dice.chance(2) {
        return decimal(dice);
    }
    let value = match dice.below(20) {
        0 => u128::from(u64::MAX),
        1 => u128::from(u64::MAX) + 1 + u128::from(dice.below(12)),
        2 => u128::from(dice.long()) << dice.between(1, 60),
        _ => u128::from(dice.any_size()),
    };
    let digits = with_zeros(dice, format!("{value:x}"));
    dice.pick(&["0x", "0x", "0X"]).to_string() + &any_case(dice, digits)
}

/// Some names look like what may stand beside them.
fn name(dice: &mut Dice) -> Vec<u8> {
    match dice.below(6) {
        0 => dice.pick(&["bootstrap", "execution", "ram", "#", "5", "0x", "/", "."]).into(),
        1 => {
            let length = dice.between(1, 12);
            (0..length).map(|_| dice.between(0x21, 0xFF) as u8).collect()
        }
        _ => format!("file{}.bin", dice.below(100)).into_bytes(),
    }
}

fn settings(dice: &mut Dice) -> Vec<u8> {
    let mut line = Vec::new();
    for word in SETTINGS {
        if dice.chance(2) {
            line.extend(gap(dice));
            line.extend(word.bytes());
            line.extend(gap(dice));
            line.extend(number(dice).bytes());
        }
    }
    line
}

fn shape(dice: &mut Dice) -> Vec<u8> {
    if dice.chance(4) {
        return Vec::new();
    }
    let mut line = vec![b'/'];
    match dice.below(12) {
        // No count, though it looks like one.
        0 => line.extend(number(dice).bytes()),
        1..=6 => line.extend(decimal(dice).bytes()),
        _ => {}
    }
    if dice.chance(2) {
        line.push(dice.pick(b"xduc"));
    }
    if dice.chance(2) {
        line.push(dice.pick(b"bhw"));
    }
    line
}

fn part(dice: &mut Dice, part: &str) -> Vec<u8> {
    match part {
        "NUMBER" => number(dice).into_bytes(),
        "NAME" => name(dice),
        "SETTINGS" => settings(dice),
        "SHAPE" => shape(dice),
        word => word.as_bytes().to_vec(),
    }
}

/// Few forms are long: those that hold something are made more often.
fn form(dice: &mut Dice) -> &'static str {
    match dice.below(4) {
        0 => FORMS[0].1,
        1 => dice.pick(&["x+SHAPE NUMBER", "xp+SHAPE NUMBER", "load NAME NUMBER"]),
        _ => FORMS[dice.below(FORMS.len() as u32) as usize].1,
    }
}

fn nothing(dice: &mut Dice) -> Vec<u8> {
    let mut line = vec![b' '; dice.below(5) as usize];
    if dice.chance(2) {
        line.push(b'#');
        let length = dice.below(20) as usize;
        line.extend(dice.bytes(length));
    }
    line
}

pub fn line(dice: &mut Dice) -> Vec<u8> {
    if dice.chance(40) {
        return nothing(dice);
    }
    let mut line = if dice.chance(8) { gap(dice) } else { Vec::new() };
    for (number, parts) in form(dice).split(' ').enumerate() {
        if number > 0 {
            line.extend(gap(dice));
        }
        for text in parts.split('+') {
            line.extend(part(dice, text));
        }
    }
    if dice.chance(8) {
        line.extend(gap(dice));
    }
    line
}
