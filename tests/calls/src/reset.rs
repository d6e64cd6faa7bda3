//! Reset: the archive's answer and every byte of image and index beside the
//! reference's.

use crate::archive;
use crate::dice::Dice;
use crate::edges::NUMBER_EDGES;
use crate::fields::{byte_name, IMAGE_BYTES};
use crate::guarded::Guarded;
use crate::report::{at_least, different, hex, said, unpacked};

const LEAST_CALLS: u64 = 100_000;

/// What is lent as an index; tests/index has its lengths.
const INDEX: [u8; 32] = [0xA5; 32];

/// Time scale, printer delay, installed map.
type Numbers = [u64; 3];

/// The highest good value of each, and the lowest.
const HIGHEST: Numbers = [255, 65_535, 255];
const LOWEST: Numbers = [1, 1, 0];

#[derive(Default)]
struct Counts {
    calls: u64,
    /// By number: 0, 5, 6.
    done: u64,
    refused_5: u64,
    refused_6: u64,
    /// Refused with 5 although 6 applies too.
    both: u64,
    /// Refused with 6 for one of the three numbers alone.
    alone: [u64; 3],
    past_32_bits: u64,
}

fn good(which: usize, number: u64) -> bool {
    (LOWEST[which]..=HIGHEST[which]).contains(&number)
}

impl Counts {
    fn add(&mut self, number: u64, numbers: Numbers) {
        let bad: Vec<usize> = (0..3).filter(|which| !good(*which, numbers[*which])).collect();
        self.calls += 1;
        match number {
            0 => self.done += 1,
            5 => {
                self.refused_5 += 1;
                self.both += u64::from(!bad.is_empty());
            }
            6 => {
                self.refused_6 += 1;
                if let [only] = bad[..] {
                    self.alone[only] += 1;
                    let low_half = numbers[only] & 0xFFFF_FFFF;
                    self.past_32_bits += u64::from(good(only, low_half));
                }
            }
            _ => different("reset", &[format!("the reference answered {number}")]),
        }
    }
}

fn one(before: &[u8], numbers: Numbers, counts: &mut Counts) {
    let [time_scale, printer_delay, installed] = numbers;
    let (mut expected, mut expected_index) = (before.to_vec(), INDEX);
    let reference = reference::diskless::reset(
        &mut expected,
        &mut expected_index,
        time_scale,
        printer_delay,
        installed,
    )
    .packed();
    let (mut image, mut index) = (Guarded::new(before), Guarded::new(&INDEX));
    let archive = archive::reset(&mut image, &mut index, time_scale, printer_delay, installed);
    let same = image.content() == expected && index.content() == expected_index;
    if archive != Ok(reference) || !same {
        let mut lines = vec![
            format!("image of {} bytes", before.len()),
            format!("time scale {time_scale} ({time_scale:#x})"),
            format!("printer delay {printer_delay} ({printer_delay:#x})"),
            format!("installed map {installed} ({installed:#x})"),
            format!("archive:   {}", said(&archive, unpacked)),
            format!("reference: {}", unpacked(reference)),
            format!("index: archive {}", hex(index.content())),
            format!("index: reference {}", hex(&expected_index)),
        ];
        let place = (0..before.len()).find(|place| image.content()[*place] != expected[*place]);
        lines.push(match place {
            None => "the images are equal afterwards".to_string(),
            Some(place) => format!(
                "first differing byte: {}: archive {:#04x}, reference {:#04x}, before {:#04x}",
                byte_name(place),
                image.content()[place],
                expected[place],
                before[place]
            ),
        });
        lines.push(format!("image before: {}", hex(before)));
        different("reset", &lines);
    }
    counts.add(reference & 0xFF, numbers);
}

/// Numbers in their ranges; an edge is as likely as anything between.
fn good_numbers(dice: &mut Dice) -> Numbers {
    let mut numbers = [0; 3];
    for (which, number) in numbers.iter_mut().enumerate() {
        let (lowest, highest) = (LOWEST[which], HIGHEST[which]);
        let between = u64::from(dice.between(lowest as u32, highest as u32));
        *number = dice.pick(&[lowest, highest, between, between]);
    }
    numbers
}

/// Every length, with good numbers and with one bad number.
fn lengths(dice: &mut Dice, counts: &mut Counts) -> u64 {
    let mut met = 0;
    for length in 0..=800 {
        for turn in 0..12 {
            let mut numbers = good_numbers(dice);
            if turn % 2 == 1 {
                numbers[turn / 2 % 3] = HIGHEST[turn / 2 % 3] + 1;
            }
            one(&dice.bytes(length), numbers, counts);
        }
        met += 1;
    }
    met
}

/// All combinations of the edges, each with a right and a wrong length.
fn edges(dice: &mut Dice, counts: &mut Counts) {
    let right = dice.bytes(IMAGE_BYTES);
    let wrong = [dice.bytes(IMAGE_BYTES - 1), dice.bytes(IMAGE_BYTES + 1)];
    for time_scale in NUMBER_EDGES {
        for printer_delay in NUMBER_EDGES {
            for (turn, installed) in NUMBER_EDGES.into_iter().enumerate() {
                let numbers = [time_scale, printer_delay, installed];
                one(&right, numbers, counts);
                one(&wrong[turn % 2], numbers, counts);
            }
        }
    }
}

/// Every good value of each number, with good ones beside it.
fn whole_ranges(dice: &mut Dice, counts: &mut Counts) -> u64 {
    let mut values = 0;
    for which in 0..3 {
        for value in LOWEST[which]..=HIGHEST[which] {
            let mut numbers = good_numbers(dice);
            numbers[which] = value;
            one(&dice.bytes(IMAGE_BYTES), numbers, counts);
            values += 1;
        }
    }
    values
}

fn random_numbers(dice: &mut Dice, counts: &mut Counts) {
    for _ in 0..30_000 {
        let mut numbers = good_numbers(dice);
        for number in &mut numbers {
            if dice.chance(3) {
                *number = dice.any_size();
            }
        }
        one(&dice.bytes(IMAGE_BYTES), numbers, counts);
    }
}

pub fn compare(dice: &mut Dice) {
    let mut counts = Counts::default();
    let lengths = lengths(dice, &mut counts);
    edges(dice, &mut counts);
    println!("reset: {} calls so far", counts.calls);
    let values = whole_ranges(dice, &mut counts);
    println!("reset: {} calls so far", counts.calls);
    random_numbers(dice, &mut counts);
    println!("reset: all");
    at_least("lengths, of 801", lengths, 801);
    at_least("good values, of 255 + 65,535 + 256", values, 255 + 65_535 + 256);
    at_least("calls", counts.calls, LEAST_CALLS);
    at_least("answered 0", counts.done, 50_000);
    at_least("answered 5", counts.refused_5, 20_000);
    at_least("answered 6", counts.refused_6, 20_000);
    at_least("answered 5 where 6 applies too", counts.both, 10_000);
    for (name, count) in ["time scale", "printer delay", "installed map"].iter().zip(counts.alone) {
        at_least(format!("answered 6 for the {name} alone"), count, 1_000);
    }
    at_least("answered 6 for bits past the 32nd alone", counts.past_32_bits, 100);
}
