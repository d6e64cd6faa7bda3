//! What the panel shows, read back. A screen that is none of these is a failure.

use crate::past::Change;

#[derive(Clone, PartialEq, Eq, Debug)]
pub enum Blame {
    Changed { address: u64, change: Change, frame: Frame },
    None { address: u64, holds: u32, on_hand: u64, frame: Frame },
    Refused { ram_bytes: u64 },
}

#[derive(Clone, PartialEq, Eq, Debug)]
pub enum Before {
    Stands {
        address: u64,
        took_back: u64,
        old: u32,
        new: u32,
        instruction: u32,
        frame: Frame,
        now: Now,
    },
    Not(Blame),
}

/// The last change in a frame, by its clock.
#[derive(Clone, Copy, PartialEq, Eq, Debug)]
pub struct Frame {
    pub address: u64,
    pub changed_at: Option<u64>,
}

#[derive(Clone, PartialEq, Eq, Debug)]
pub enum Moved {
    Ran { steps: u64, exception: bool, now: Now },
    TookBack { steps: u64, now: Now },
    Refused { number: u64 },
}

#[derive(Clone, Copy, PartialEq, Eq, Debug)]
pub struct Now {
    pub pc: u32,
    pub clock: u64,
    pub on_hand: u64,
}

/// The rest of a screen; each part is taken off its front, or there is none.
struct Rest<'a>(&'a str);

impl<'a> Rest<'a> {
    fn text(&mut self, text: &str) -> Option<()> {
        self.0 = self.0.strip_prefix(text)?;
        Some(())
    }

    fn up_to(&mut self, end: fn(char) -> bool) -> &'a str {
        let at = self.0.find(end).unwrap_or(self.0.len());
        let (part, rest) = self.0.split_at(at);
        self.0 = rest;
        part
    }

    /// Eight digits of lower case behind `0x`, as all words are shown.
    fn word(&mut self) -> Option<u32> {
        let digits = self.hex()?;
        (digits.len() == 8).then(|| u32::from_str_radix(digits, 16).ok())?
    }

    fn hex(&mut self) -> Option<&'a str> {
        self.text("0x")?;
        let digits = self.up_to(|c| !c.is_ascii_hexdigit());
        (!digits.bytes().any(|byte| byte.is_ascii_uppercase())).then_some(digits)
    }

    /// A decimal number with a comma before each three digits, and no zeros in
    /// front.
    fn number(&mut self) -> Option<u64> {
        let mut digits = self.up_to(|c| !c.is_ascii_digit()).to_string();
        if digits.is_empty() || digits.len() > 3 || digits.len() > 1 && digits.starts_with('0') {
            return None;
        }
        // A comma with no digit behind it is no part of the number.
        while self
            .0
            .strip_prefix(',')
            .map_or(false, |rest| rest.starts_with(|c: char| c.is_ascii_digit()))
        {
            self.text(",")?;
            let three = self.up_to(|c| !c.is_ascii_digit());
            if three.len() != 3 || digits == "0" {
                return None;
            }
            digits.push_str(three);
        }
        digits.parse().ok()
    }

    /// `1 step` or `N steps`.
    fn steps(&mut self) -> Option<u64> {
        let number = self.number()?;
        self.text(if number == 1 { " step" } else { " steps" })?;
        Some(number)
    }

    fn frame(&mut self) -> Option<Frame> {
        if self.text("No step on hand changed a byte of frame ").is_some() {
            let address = self.word()?.into();
            self.text(".\n")?;
            return Some(Frame { address, changed_at: None });
        }
        self.text("The last change in frame ")?;
        let address = self.word()?.into();
        self.text(" was at clock ")?;
        let changed_at = Some(self.number()?);
        self.text(".\n")?;
        Some(Frame { address, changed_at })
    }

    /// The last line of a screen of something that was done.
    fn now(&mut self) -> Option<Now> {
        self.text("Now: PC ")?;
        let pc = self.word()?;
        self.text(", clock ")?;
        let clock = self.number()?;
        self.text(", ")?;
        let on_hand = self.steps()?;
        self.text(" on hand.\n")?;
        Some(Now { pc, clock, on_hand })
    }

    fn ended<T>(&self, value: T) -> Option<T> {
        self.0.is_empty().then_some(value)
    }
}

fn changed(screen: &str) -> Option<Blame> {
    let rest = &mut Rest(screen);
    let address = rest.word()?;
    rest.text(" was last changed ")?;
    let ago = rest.steps()?;
    rest.text(" ago, from ")?;
    let old = rest.word()?;
    rest.text(" to ")?;
    let new = rest.word()?;
    rest.text(":\n  clock ")?;
    let clock = rest.number()?;
    rest.text(" (after its tick)\n  PC ")?;
    let pc = rest.word()?;
    rest.text(", instruction ")?;
    let instruction = rest.word()?;
    rest.text("\nTo stand just before that step: before ")?;
    let again = rest.word()?;
    rest.text("\n")?;
    let frame = rest.frame()?;
    let change = Change { ago, clock, pc, instruction, old, new };
    let blame = Blame::Changed { address: address.into(), change, frame };
    (again == address).then(|| rest.ended(blame))?
}

fn none(screen: &str) -> Option<Blame> {
    let rest = &mut Rest(screen);
    rest.text("No step on hand changed ")?;
    let address = rest.word()?.into();
    rest.text(", which holds ")?;
    let holds = rest.word()?;
    rest.text(".\nOn hand: ")?;
    let on_hand = rest.steps()?;
    rest.text(". An older change is not in the journal any more.\n")?;
    let frame = rest.frame()?;
    rest.ended(Blame::None { address, holds, on_hand, frame })
}

fn refused(screen: &str) -> Option<Blame> {
    let rest = &mut Rest(screen);
    rest.text("Refused: give a multiple of 4 in RAM, which is ")?;
    let ram_bytes = rest.number()?;
    rest.text(" bytes from 0x20000000.\n")?;
    rest.ended(Blame::Refused { ram_bytes })
}

pub fn blame(screen: &str) -> Blame {
    let parsed = changed(screen).or_else(|| none(screen)).or_else(|| refused(screen));
    parsed.unwrap_or_else(|| panic!("no screen of blame:\n{screen}"))
}

fn stands(screen: &str) -> Option<Before> {
    let rest = &mut Rest(screen);
    rest.text("Took back ")?;
    let took_back = rest.steps()?;
    rest.text(".\nThe next step changes ")?;
    let address = rest.word()?.into();
    rest.text(" from ")?;
    let old = rest.word()?;
    rest.text(" to ")?;
    let new = rest.word()?;
    rest.text(",\nby the instruction ")?;
    let instruction = rest.word()?;
    rest.text(".\n")?;
    let frame = rest.frame()?;
    let now = rest.now()?;
    rest.ended(Before::Stands { address, took_back, old, new, instruction, frame, now })
}

pub fn before(screen: &str) -> Before {
    let not = || none(screen).or_else(|| refused(screen)).map(Before::Not);
    stands(screen).or_else(not).unwrap_or_else(|| panic!("no screen of before:\n{screen}"))
}

fn ran(screen: &str) -> Option<Moved> {
    let rest = &mut Rest(screen);
    rest.text("Ran ")?;
    let steps = rest.steps()?;
    let exception = rest.text("; the last one entered an exception:\n").is_some();
    if exception {
        rest.up_to(|c| c == '\n');
        rest.text("\n")?;
    } else {
        rest.text(", as many as were asked for.\n")?;
    }
    let now = rest.now()?;
    rest.ended(Moved::Ran { steps, exception, now })
}

fn took_back(screen: &str) -> Option<Moved> {
    let rest = &mut Rest(screen);
    rest.text("Took back ")?;
    let steps = rest.steps()?;
    rest.text(".\n")?;
    let now = rest.now()?;
    rest.ended(Moved::TookBack { steps, now })
}

fn not_moved(screen: &str) -> Option<Moved> {
    let rest = &mut Rest(screen);
    rest.text("Refused (")?;
    let number = rest.number()?;
    rest.text("): so many steps are not on hand. info station says how many are.\n")?;
    rest.ended(Moved::Refused { number })
}

pub fn moved(screen: &str) -> Moved {
    let parsed = ran(screen).or_else(|| took_back(screen)).or_else(|| not_moved(screen));
    parsed.unwrap_or_else(|| panic!("no screen of a run or take-back:\n{screen}"))
}
