//! Packets of every kind that gdb sends, and some that it does not.

use crate::dice::Dice;

pub struct Kind {
    pub name: &'static str,
    /// Whether it may run the machine, so that a byte 3 may be needed.
    pub runs: bool,
    pub said: fn(&mut Dice) -> Vec<u8>,
}

fn address(dice: &mut Dice) -> u32 {
    match dice.below(8) {
        0 => dice.word(),
        1 => dice.pick(&[0, 3, 0x1FC0_0000, 0x1FC0_00FC, 0x2000_0000, 0x2000_0FFC, 0x2000_1000]),
        2 => u32::MAX - dice.below(9),
        3 => 0x1000_0000 + dice.below(0x2D0),
        4 => 0x8000_0000 + dice.below(0x3000),
        5 => 0x1FC0_0000 + 4 * dice.below(64),
        _ => 0x2000_0000 + dice.below(0x1010),
    }
}

fn count(dice: &mut Dice) -> u64 {
    match dice.below(6) {
        0 => dice.any_size(),
        1 => dice.pick(&[0, 0x1000, 0x1FFF, 0x2000, 0x2001, 0x4000, 0xFFFF_FFFF, u64::MAX]),
        _ => u64::from(dice.between(1, 64)),
    }
}

fn hex(bytes: &[u8]) -> String {
    bytes.iter().map(|byte| format!("{byte:02x}")).collect()
}

/// Escaped as gdb escapes what is sent as bytes.
fn escaped(bytes: &[u8]) -> Vec<u8> {
    let mut out = Vec::new();
    for &byte in bytes {
        if matches!(byte, b'$' | b'#' | b'}' | b'*') {
            out.extend([b'}', byte ^ 0x20]);
        } else {
            out.push(byte);
        }
    }
    out
}

fn fixed(dice: &mut Dice, from: &[&str]) -> Vec<u8> {
    dice.pick(from).as_bytes().to_vec()
}

fn point(dice: &mut Dice, letter: char) -> Vec<u8> {
    let (kind, bytes) = (dice.below(6), dice.pick(&[0, 1, 2, 3, 4, 4, 4, 4, 8, 0x1000]));
    format!("{letter}{kind},{:x},{bytes:x}", address(dice)).into_bytes()
}

fn monitor(dice: &mut Dice) -> Vec<u8> {
    let line = match dice.below(12) {
        0 => "info tlb".to_string(),
        1 => "info registers".to_string(),
        2 => "help".to_string(),
        3 => format!("blame {:#x}", address(dice)),
        4 => format!("before {:#x}", address(dice)),
        5 => "stats".to_string(),
        6 => "reset".to_string(),
        7 => format!("run {}", count(dice) % 3_000),
        8 => format!("back {}", count(dice)),
        9 => "paper".to_string(),
        10 => format!("list {:#x} {}", address(dice), count(dice)),
        _ => "x".repeat(dice.below(1_100) as usize),
    };
    format!("qRcmd,{}", hex(line.as_bytes())).into_bytes()
}

macro_rules! kind {
    ($name:literal, $runs:literal, $said:expr) => {
        Kind { name: $name, runs: $runs, said: $said }
    };
}

pub const KINDS: &[Kind] = &[
    kind!("qSupported", false, |dice| fixed(
        dice,
        &[
            "qSupported",
            "qSupported:",
            "qSupported:multiprocess+;swbreak+;hwbreak+;vContSupported+"
        ]
    )),
    kind!("qXfer", false, |dice| {
        let name = dice.pick(&["target.xml", "target.xml", "target.xml", "x", ""]);
        let from = dice.pick(&[0, 0, 1, 0x800, 0x1000, 0x10000]);
        format!("qXfer:features:read:{name}:{from:x},{:x}", count(dice)).into_bytes()
    }),
    kind!("questions without numbers", false, |dice| fixed(
        dice,
        &[
            "?",
            "qfThreadInfo",
            "qsThreadInfo",
            "qAttached",
            "qAttached:1",
            "qC",
            "qOffsets",
            "qTStatus",
            "qSymbol::",
            "qL",
            "vCont?",
            "vMustReplyEmpty",
            "g",
            "!",
            "T1",
            "T-1",
            "Hg0",
            "Hc-1",
            "Hc1",
            "qTfV",
            "qCRC:0,4",
            "qSearch:memory:0;4;x",
            "",
            "Y",
            "vRun;",
        ]
    )),
    kind!("memory read", false, |dice| {
        format!("m{:x},{:x}", address(dice), count(dice)).into_bytes()
    }),
    kind!("memory written by digits", false, |dice| {
        let length = dice.below(40) as usize;
        let bytes = dice.bytes(length);
        format!("M{:x},{:x}:{}", address(dice), bytes.len(), hex(&bytes)).into_bytes()
    }),
    kind!("memory written by bytes", false, |dice| {
        let length = dice.pick(&[0, 1, 4, 40, 300, 5_000]);
        let bytes = dice.bytes(length);
        let mut said = format!("X{:x},{:x}:", address(dice), bytes.len()).into_bytes();
        said.extend(escaped(&bytes));
        said
    }),
    kind!("register read", false, |dice| format!("p{:x}", dice.below(90)).into_bytes()),
    kind!("register written", false, |dice| {
        format!("P{:x}={}", dice.below(90), hex(&dice.word().to_le_bytes())).into_bytes()
    }),
    kind!("all registers written", false, |dice| {
        let length = dice.pick(&[82 * 4, 82 * 4, 82 * 4, 38 * 4, 3, 0]);
        format!("G{}", hex(&dice.bytes(length))).into_bytes()
    }),
    kind!("point put in", false, |dice| point(dice, 'Z')),
    kind!("point taken out", false, |dice| point(dice, 'z')),
    kind!("step", true, |dice| fixed(
        dice,
        &["vCont;s:1", "vCont;s:1;c", "vCont;S05:1", "s", "S05", "bs", "vCont;s", "vCont;t"]
    )),
    kind!("range", true, |dice| {
        let from = address(dice);
        format!("vCont;r{from:x},{:x}:1;c", from.wrapping_add(dice.below(64))).into_bytes()
    }),
    kind!("continue", true, |dice| fixed(
        dice,
        &["vCont;c", "vCont;c:1", "vCont;C0b:1;c", "c", "C05"]
    )),
    kind!("continue from another place", true, |dice| {
        format!("{}{:x}", dice.pick(&["c", "s"]), address(dice)).into_bytes()
    }),
    kind!("back", true, |_| b"bc".to_vec()),
    kind!("monitor", true, monitor),
    kind!("end", true, |dice| fixed(dice, &["D", "D;1", "k", "vKill;1", "R00", "r"])),
    kind!("no acknowledgements", false, |_| b"QStartNoAckMode".to_vec()),
    kind!("unknown", false, |dice| {
        let length = dice.below(30) as usize;
        let letters = b"abcdefghqQvzZ0123456789:;,=+-";
        (0..length).map(|_| dice.pick(letters)).collect()
    }),
];
