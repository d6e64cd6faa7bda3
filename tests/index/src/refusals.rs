//! Refusals of the four calls, each number alone and with others: the lowest
//! that applies, and no byte changed.

use crate::asked::{asked, lengths, lent};
use crate::call::Call;
use crate::dice::Dice;
use crate::fields::{FIRST_WORD, IMAGE_BYTES};
use crate::history::{wrong, Checked};
use crate::lengths::Lengths;
use crate::lent::empty_index;
use crate::met::Met;
use crate::pool::Pool;
use crate::program;
use crate::record::{newest, set, DISTANCE, KIND, RAM_WORD};
use crate::sides::Sides;
use crate::wild::fitted;
use crate::wrong::{values, BOOTSTRAP, BUDGET, EXECUTION, IMAGE, JOURNAL, PAPER, RAM};
use reference::layout::RECORD_BYTES;
use reference::{decode, Answer};

pub const RESET: usize = 0;
pub const RUN: usize = 1;
pub const BACK: usize = 2;
pub const ASK: usize = 3;

/// The calls, each with the numbers that it can answer.
pub const CALLS: [(&str, &[u8]); 4] = [
    ("reset", &[5, 6, 10]),
    ("run", &[1, 2, 3, 4, 5, 6, 10]),
    ("take-back", &[1, 3, 4, 5, 7, 8, 10]),
    ("the question", &[1, 3, 4, 5, 8, 10, 11, 12]),
];

const PC: usize = 33;

pub const WRONG_ANSWERS: [usize; 8] = [0, 1, 8, 15, 17, 20, 32, 4_096];

/// One call, with the numbers that are to apply, and what is fixed of it.
#[derive(Clone, Default)]
pub struct Trial {
    pub call: usize,
    pub rows: Vec<u8>,
    pub ram: Option<u64>,
    pub index: Option<usize>,
    pub address: Option<u64>,
    pub answer: Option<usize>,
    pub distance: Option<u32>,
}

impl Trial {
    /// Bit k makes the k-th of the call's numbers apply.
    pub fn of(call: usize, bits: u32) -> Trial {
        let all = CALLS[call].1.iter().enumerate();
        let rows = all.filter(|(place, _)| bits >> place & 1 != 0).map(|(_, row)| *row).collect();
        Trial { call, rows, ..Trial::default() }
    }

    fn has(&self, row: u8) -> bool {
        self.rows.contains(&row)
    }

    fn index_bytes(&self, dice: &mut Dice, due: usize) -> usize {
        match self.index {
            Some(length) => length,
            None if self.has(10) => {
                let near = [due + 1, due + 8, due + 16, 2 * due + 16, due.saturating_sub(1)];
                let all = [&near[..], &[0, 1, 15, 65_552, due.saturating_sub(16)]].concat();
                let wrong: Vec<usize> = all.into_iter().filter(|it| *it != due).collect();
                dice.pick(&wrong)
            }
            None => due,
        }
    }

    /// Whether row 5 is to apply by a rule, and not by the length.
    fn by_rule(&self, dice: &mut Dice) -> bool {
        self.has(5) && dice.chance(2)
    }
}

/// Image and index alone are lent to a reset.
fn reset(dice: &mut Dice, pool: &Pool, trial: &Trial) -> Tried {
    let image = if trial.has(5) { dice.pick(&[0, 1, 509, 740, 742]) } else { IMAGE_BYTES };
    let index = match trial.index {
        Some(length) => length,
        None if trial.has(10) => dice.pick(&[0, 1, 8, 15, 17, 24, 65_535, 65_537, 65_552]),
        None => dice.pick(&[16, 32, 48, 160, 65_520, 65_536]),
    };
    let mut parameters = [1, 1, 0xFF];
    if trial.has(6) {
        let place = dice.below(3) as usize;
        parameters[place] = dice.pick(&[1 << 16, 1 << 32, u64::MAX]);
    }
    let mut sides = Sides::new(Call {
        image: pool.bytes(dice, image),
        execution: Vec::new(),
        bootstrap: Vec::new(),
        ram: Vec::new(),
        paper: Vec::new(),
        journal: Vec::new(),
        index: pool.bytes(dice, index),
        budget: 0,
        stop: 0,
    });
    let answer = sides.reset(parameters)?;
    Ok((sides, answer))
}

type Tried = Result<(Sides, Answer), Vec<String>>;

/// The first step is an exception at which the run stops, so that a large budget
/// costs nothing.
fn run(dice: &mut Dice, pool: &Pool, trial: &Trial) -> Tried {
    let roms = dice.pick(&[1 << EXECUTION, 1 << BOOTSTRAP, 1 << EXECUTION | 1 << BOOTSTRAP]);
    let bits = [(1, 1 << RAM), (2, roms), (3, 1 << PAPER), (4, 1 << JOURNAL), (6, 1 << BUDGET)];
    let by_rule = trial.by_rule(dice);
    let image_bit = if trial.has(5) && !by_rule { 1 << IMAGE } else { 0 };
    let wrong: u32 = bits.iter().filter(|(row, _)| trial.has(*row)).map(|(_, bit)| bit).sum();
    let mut values = values(dice, wrong | image_bit);
    values[RAM] = trial.ram.unwrap_or(values[RAM]);
    let slots = (values[JOURNAL] as usize / RECORD_BYTES).min(32_768) as u32;
    let paper = values[PAPER].min(65_536) as u32;
    let mut case = fitted(dice, &Lengths { ram: 4_096, execution: 4, bootstrap: 4, paper, slots });
    case.words[PC] |= 1;
    let mut image = case.bytes();
    if by_rule {
        image[FIRST_WORD - 1] ^= 1;
    }
    image.resize(values[IMAGE] as usize, 0);
    let due = empty_index(values[RAM] as usize).len();
    let index = trial.index_bytes(dice, due);
    let bytes = |dice: &mut Dice, place: usize| pool.bytes(dice, values[place] as usize);
    let mut sides = Sides::new(Call {
        image,
        execution: bytes(dice, EXECUTION),
        bootstrap: bytes(dice, BOOTSTRAP),
        ram: bytes(dice, RAM),
        paper: bytes(dice, PAPER),
        journal: bytes(dice, JOURNAL),
        index: pool.bytes(dice, index),
        budget: 0,
        stop: 0,
    });
    let answer = sides.run(values[BUDGET], 1)?;
    Ok((sides, answer))
}

/// What take-back and the question are lent, and how many steps are asked for.
fn judged(dice: &mut Dice, pool: &Pool, trial: &Trial) -> (Call, u64) {
    let by_rule = trial.by_rule(dice);
    let bits = [(1, 1), (3, 2), (4, 4), (5, 8), (7, 16), (8, 32)];
    let mut wrong: u32 = bits.iter().filter(|(row, _)| trial.has(*row)).map(|(_, bit)| bit).sum();
    if by_rule {
        wrong &= !8;
    }
    // A wrong record needs a slot.
    let lengths = loop {
        let mut lengths = lengths(dice, wrong);
        lengths[0] = trial.ram.unwrap_or(lengths[0]);
        if trial.has(4) || lengths[2] >= RECORD_BYTES as u64 {
            break lengths;
        }
    };
    let asked = asked(dice, lengths, wrong);
    let mut call = lent(dice, pool, &asked);
    if by_rule {
        call.image[FIRST_WORD - 1] ^= 1;
    }
    let due = empty_index(call.ram.len()).len();
    let index = trial.index_bytes(dice, due);
    call.index = pool.bytes(dice, index);
    if let Some(distance) = trial.distance {
        let machine = decode(&call.image);
        let newest = newest(machine.next_slot, call.slots(), 1).next().expect("one is on hand");
        let record = &mut call.journal[RECORD_BYTES * newest..][..RECORD_BYTES];
        set(record, KIND, RAM_WORD);
        set(record, DISTANCE, distance);
    }
    (call, asked.steps)
}

fn back(dice: &mut Dice, pool: &Pool, trial: &Trial) -> Tried {
    let (call, steps) = judged(dice, pool, trial);
    // The newest record is asked for where it is the one that matters.
    let steps = if trial.distance.is_some() { steps.max(1) } else { steps };
    let mut sides = Sides::new(call);
    let answer = sides.take_back(steps)?;
    Ok((sides, answer))
}

fn ask(dice: &mut Dice, pool: &Pool, trial: &Trial) -> Tried {
    let (call, _) = judged(dice, pool, trial);
    let start = u64::from(program::RAM);
    let end = start + call.ram.len() as u64;
    let word = start + 4 * u64::from(dice.below(call.ram.len().max(4) as u32 / 4));
    let outside = [0, start - 4, end + (4 - end % 4), word | 1 << 32, word | 1 << 63, u64::MAX - 3];
    let address = match trial.address {
        Some(address) => address,
        None if trial.has(11) && dice.chance(2) => word + u64::from(dice.between(1, 3)),
        None if trial.has(11) => dice.pick(&outside),
        None => word,
    };
    let length = match trial.answer {
        Some(length) => length,
        None if trial.has(12) => dice.pick(&WRONG_ANSWERS),
        None => 16,
    };
    let content = pool.bytes(dice, length);
    let mut sides = Sides::new(call);
    let (answer, told) = sides.last_write(address, &content)?;
    if answer.number != 0 && told != content {
        return Err(vec!["a refusal wrote an answer".to_string()]);
    }
    Ok((sides, answer))
}

pub fn one(dice: &mut Dice, pool: &Pool, trial: &Trial, met: &mut Met) -> Checked {
    let (sides, answer) = match trial.call {
        RESET => reset(dice, pool, trial),
        RUN => run(dice, pool, trial),
        BACK => back(dice, pool, trial),
        _ => ask(dice, pool, trial),
    }?;
    let due = trial.rows.first().copied().unwrap_or(0);
    if answer.number != due || due != 0 && answer != Answer::refused(due) {
        return wrong(format!("both answered {answer:?}, due is {due}"));
    }
    if due != 0 {
        if let Some(touched) = sides.lent.touched() {
            return wrong(touched);
        }
    }
    met.refused(trial, due);
    Ok(())
}
