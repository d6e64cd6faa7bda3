//! Refusals 1, 3, 4, 5, 7 and 8, each alone and with others: the lowest number
//! that applies, and no byte changed.

use crate::asked::{asked, lengths, lent, rows, Asked, LENGTHS, ROWS};
use crate::breaches::BREACHES;
use crate::dice::Dice;
use crate::fields::IMAGE_BYTES;
use crate::pool::Pool;
use crate::report::different;
use crate::sides::Sides;

const EACH_COMBINATION: u64 = 120;
const BROKEN_IMAGES: usize = 20_000;

pub struct Met {
    pub by_number: [u64; 10],
    pub alone: [u64; 6],
    /// Refused although a higher number applies too.
    pub several: u64,
    pub combinations: u64,
    pub values: u64,
    pub breaches: Vec<u64>,
}

struct Trial<'a> {
    seed: u64,
    pool: &'a Pool,
    met: &'a mut Met,
}

impl Trial<'_> {
    /// `rows` are all the numbers that apply, the lowest first.
    fn one(&mut self, dice: &mut Dice, asked: &Asked, rows: &[u8], what: &str) {
        let number = rows.first().copied().unwrap_or(0);
        let mut sides = Sides::new(lent(dice, self.pool, asked));
        let lines = match sides.take_back(asked.steps) {
            Err(lines) => lines,
            Ok(answer) if answer.number != number => {
                vec![format!("answered {}, not {number}", answer.number)]
            }
            Ok(answer) if number != 0 && (answer.steps, answer.reason) != (0, 0) => {
                vec!["a refusal reported steps or a reason".to_string()]
            }
            Ok(_) => match sides.lent.touched().filter(|_| number != 0 || asked.steps == 0) {
                None => return self.count(rows, number),
                Some(touched) => vec![touched],
            },
        };
        let what = vec![
            format!("seed {}, refusals: {what}", self.seed),
            format!("lengths of RAM, paper, journal, image {:?}", asked.lengths),
            format!("steps {}, numbers that apply {rows:?}", asked.steps),
        ];
        different("refusals of take-back", &[what, lines].concat())
    }

    fn count(&mut self, rows: &[u8], number: u8) {
        self.met.by_number[number as usize] += 1;
        self.met.several += u64::from(rows.len() > 1);
        if let [row] = rows {
            let place = ROWS.iter().position(|(_, other)| other == row).expect("a row");
            self.met.alone[place] += 1;
        }
    }

    /// All 64 ways to have some of the six wrong.
    fn combinations(&mut self, dice: &mut Dice, each: u64) {
        for wrong in 0..64 {
            for _ in 0..each {
                let lengths = lengths(dice, wrong);
                let asked = asked(dice, lengths, wrong);
                let rows = rows(wrong, &asked);
                self.one(dice, &asked, &rows, &format!("wrong {wrong:#08b}"));
            }
            self.met.combinations += 1;
        }
    }

    /// Each length, long ones too, beside right ones.
    fn values(&mut self, dice: &mut Dice) {
        for (place, choices) in LENGTHS.iter().enumerate() {
            let right = choices.right.iter().map(|value| (*value, 0));
            let not = choices.wrong.iter().map(|value| (*value, 1 << place));
            for (value, wrong) in right.chain(not) {
                for _ in 0..if value > 1_000_000 { 1 } else { 10 } {
                    let mut lengths = lengths(dice, 0);
                    lengths[place] = value;
                    let asked = asked(dice, lengths, wrong);
                    let rows = rows(wrong, &asked);
                    self.one(dice, &asked, &rows, &format!("{} of {value}", choices.name));
                }
                self.met.values += 1;
            }
        }
    }

    /// Each rule of the image broken alone, with the rest right and with some
    /// of the rest wrong.
    fn broken_images(&mut self, dice: &mut Dice, turns: usize) {
        for turn in 0..turns {
            let others = dice.below(64) & !(1 << 3);
            let wrong = if turn / BREACHES.len() % 2 == 0 { 0 } else { others };
            let lengths = lengths(dice, wrong);
            let mut asked = asked(dice, lengths, wrong);
            let (name, breach) = &BREACHES[turn % BREACHES.len()];
            if !breach(&mut asked.case, dice) {
                continue;
            }
            // What such an image has on hand is not asked.
            let mut rows = rows(wrong, &asked);
            rows.retain(|row| *row < 5);
            rows.push(5);
            self.one(dice, &asked, &rows, name);
            self.met.breaches[turn % BREACHES.len()] += u64::from(rows == [5]);
        }
    }

    fn lengths_of_image(&mut self, dice: &mut Dice) {
        for length in 0..=600 {
            let mut lengths = lengths(dice, 0);
            lengths[3] = length;
            let asked = asked(dice, lengths, 0);
            let rows: &[u8] = if length == IMAGE_BYTES as u64 { &[] } else { &[5] };
            self.one(dice, &asked, rows, &format!("an image of {length} bytes"));
        }
    }
}

pub fn compare(seed: u64, percent: u64) -> Met {
    let dice = &mut Dice::new(seed);
    let pool = Pool::new(dice);
    let mut met = Met {
        by_number: [0; 10],
        alone: [0; 6],
        several: 0,
        combinations: 0,
        values: 0,
        breaches: vec![0; BREACHES.len()],
    };
    let mut trial = Trial { seed, pool: &pool, met: &mut met };
    trial.combinations(dice, EACH_COMBINATION * percent / 100);
    trial.values(dice);
    trial.broken_images(dice, BROKEN_IMAGES * percent as usize / 100);
    trial.lengths_of_image(dice);
    met
}
