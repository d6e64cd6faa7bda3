//! Stations, and sessions with them.

use crate::dice::Dice;
use crate::paged::Edge;
use crate::stub::{
    Rooms, Station, Stub, FULL_ROOMS, KEPT_BYTES, OUT_BYTES, PACKET_BYTES, REPLY_BYTES,
};
use reference::diskless::{reset, run_with_records};
use reference::layout::RECORD_BYTES;
use reference::IMAGE_BYTES;

/// How much of a session is beyond doubt.
#[derive(Clone, Copy, PartialEq, Eq, Debug)]
pub enum Trust {
    /// A station that keeps all rules.
    Plain,
    /// Any bytes in image, RAM, paper, journal and index.
    AnyBytes,
    /// Buffers that are too short, so that what is said may be cut.
    ShortRooms,
    /// Any words in the session.
    AnyWords,
}

pub const TRUSTS: [(Trust, &str); 4] = [
    (Trust::Plain, "sessions with a station that keeps the rules"),
    (Trust::AnyBytes, "with any bytes in the station"),
    (Trust::ShortRooms, "with buffers that are too short"),
    (Trust::AnyWords, "with any words in the session"),
];

/// A loop that adds, stores bytes, words and halves, and raises an exception now and
/// then; its handler goes on behind.
fn bootstrap(dice: &mut Dice) -> Vec<u8> {
    let mut words = vec![0x3C10_2000];
    for _ in 0..dice.between(5, 40) {
        words.push(match dice.below(8) {
            0 => 0xAE08_0000 | 4 * dice.below(40),
            1 => 0xA209_0000 | dice.below(160),
            2 => 0xA60A_0000 | 2 * dice.below(80),
            3 => 0x0000_000C,
            _ => dice.pick(&[0x2508_0001, 0x2529_0003, 0x254A_0007, 0x8E0B_0004, 0]),
        });
    }
    words.extend([0x0BF0_0001, 0]);
    words.resize(0x40, 0);
    words.resize(0x60, 0);
    words.extend([0x401A_7000, 0x275A_0004, 0x0340_0008, 0x4200_0010]);
    words.iter().flat_map(|word: &u32| word.to_le_bytes()).collect()
}

pub fn station(dice: &mut Dice, trust: Trust) -> Station {
    let (frames, slots) = (dice.pick(&[1, 1, 1, 3]), dice.pick(&[0, 1, 3, 17, 40]));
    let mut station = Station {
        image: vec![0; IMAGE_BYTES],
        execution: vec![0; 4 * dice.between(1, 8) as usize],
        bootstrap: bootstrap(dice),
        ram: vec![0; frames * 4_096],
        paper: vec![0; 8 * dice.pick(&[0, 1, 10])],
        journal: dice.bytes(slots * RECORD_BYTES),
        index: vec![0; frames * 16],
    };
    reset(&mut station.image, &mut station.index, 1, u64::from(dice.between(1, 9)), 0x81);
    let steps = u64::from(dice.below(100));
    let answer = run_with_records(
        &mut station.image,
        &station.execution,
        &station.bootstrap,
        &mut station.ram,
        &mut station.paper,
        &mut station.journal,
        &mut station.index,
        steps,
        0,
    );
    assert_eq!((answer.number, u64::from(answer.steps)), (0, steps), "the test's own run");
    if trust == Trust::AnyBytes {
        let some = dice.below(31) + 1;
        let wild = |dice: &mut Dice, bytes: &mut Vec<u8>| *bytes = dice.bytes(bytes.len());
        if some & 1 != 0 && dice.chance(2) {
            wild(dice, &mut station.image);
        } else if some & 1 != 0 {
            for _ in 0..dice.between(1, 4) {
                let at = dice.below(IMAGE_BYTES as u32) as usize;
                station.image[at] = dice.below(256) as u8;
            }
        }
        for (bit, bytes) in [
            (2, &mut station.ram),
            (4, &mut station.paper),
            (8, &mut station.journal),
            (16, &mut station.index),
        ] {
            if some & bit != 0 {
                wild(dice, bytes);
            }
        }
    }
    station
}

fn rooms(dice: &mut Dice, trust: Trust) -> Rooms {
    if trust != Trust::ShortRooms {
        return FULL_ROOMS;
    }
    let mut short = |full: usize| match dice.below(4) {
        0 => full,
        1 => dice.below(8) as usize,
        2 => dice.below(600) as usize,
        _ => dice.below(full as u32) as usize,
    };
    Rooms {
        out: short(OUT_BYTES),
        packet: short(PACKET_BYTES),
        reply: short(REPLY_BYTES),
        kept: short(KEPT_BYTES),
    }
}

pub fn trust(dice: &mut Dice) -> Trust {
    match dice.below(10) {
        0..=5 => Trust::Plain,
        6 | 7 => Trust::AnyBytes,
        8 => Trust::ShortRooms,
        _ => Trust::AnyWords,
    }
}

/// As many stubs of one station, all alike.
pub fn stubs(dice: &mut Dice, trust: Trust, count: usize) -> Vec<Stub> {
    let station = station(dice, trust);
    let edge = dice.pick(&[Edge::First, Edge::Last]);
    let rooms = rooms(dice, trust);
    (0..count).map(|_| Stub::new(&station, edge, rooms)).collect()
}
