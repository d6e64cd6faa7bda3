//! A reader of the station's lines, written from docs/COMMANDS.md alone.

/// What a line asks for, as numbers: its kind, what it holds, and zeros.
pub type Heard = [u64; 11];

pub const NOTHING: u64 = 0;
pub const REFUSED: u64 = 24;
pub const KINDS: usize = 25;

/// A kind, its form as the page prints it, and what the form holds behind the
/// numbers of its parts. A space is a gap; what is joined by + has none between.
type Form = (u64, &'static str, &'static [u64]);

pub const FORMS: [Form; 47] = [
    (1, "new+SETTINGS execution NAME bootstrap NAME", &[]),
    (2, "load NAME NUMBER", &[]),
    (3, "run NUMBER", &[]),
    (4, "run exception", &[u64::MAX]),
    (4, "run exception NUMBER", &[]),
    (5, "stepi", &[1]),
    (5, "si", &[1]),
    (5, "stepi NUMBER", &[]),
    (5, "si NUMBER", &[]),
    (6, "back NUMBER", &[]),
    (6, "reverse-stepi", &[1]),
    (6, "rsi", &[1]),
    (6, "reverse-stepi NUMBER", &[]),
    (6, "rsi NUMBER", &[]),
    (7, "blame NUMBER", &[]),
    (8, "before NUMBER", &[]),
    (9, "info registers", &[]),
    (10, "info cp0", &[]),
    (11, "info tlb", &[]),
    (12, "info clocks", &[]),
    (13, "info printers", &[]),
    (14, "info station", &[]),
    (15, "paper NUMBER", &[]),
    (16, "paper", &[]),
    (17, "x+SHAPE NUMBER", &[0]),
    (17, "xp+SHAPE NUMBER", &[1]),
    (18, "compare NAME", &[]),
    (19, "save", &[]),
    (20, "restore", &[]),
    (21, "quit", &[]),
    (22, "abandon", &[]),
    (23, "help", &[0]),
    (23, "help new", &[1]),
    (23, "help load", &[2]),
    (23, "help run", &[3]),
    (23, "help stepi", &[4]),
    (23, "help back", &[5]),
    (23, "help blame", &[6]),
    (23, "help before", &[7]),
    (23, "help info", &[8]),
    (23, "help paper", &[9]),
    (23, "help x", &[10]),
    (23, "help compare", &[11]),
    (23, "help save", &[12]),
    (23, "help restore", &[13]),
    (23, "help quit", &[14]),
    (23, "help abandon", &[15]),
];

/// The words of the settings, with the values where they are left out.
const SETTINGS: [(&str, u64); 6] = [
    ("ram", 64),
    ("paper", 8192),
    ("journal", 4096),
    ("scale", 1),
    ("delay", 100),
    ("printers", 1),
];

const FORMATS: &[u8] = b"xduc";
const UNITS: &[u8] = b"bhw";

enum Part {
    Word(&'static str),
    Gap,
    Number,
    Name,
    Settings,
    Shape,
}

/// The part fits, or fails at a place.
type Fits<T> = Result<T, usize>;

fn parts(form: &'static str) -> Vec<Part> {
    let mut parts = Vec::new();
    for (number, joined) in form.split(' ').enumerate() {
        if number > 0 {
            parts.push(Part::Gap);
        }
        parts.extend(joined.split('+').map(|part| match part {
            "NUMBER" => Part::Number,
            "NAME" => Part::Name,
            "SETTINGS" => Part::Settings,
            "SHAPE" => Part::Shape,
            word => Part::Word(word),
        }));
    }
    parts
}

struct Reader<'a> {
    line: &'a [u8],
    place: usize,
    /// The furthest place where a setting that was left out failed.
    left_out: usize,
}

impl Reader<'_> {
    fn byte(&self) -> Option<u8> {
        self.line.get(self.place).copied()
    }

    fn while_any(&mut self, test: fn(u8) -> bool) -> usize {
        let from = self.place;
        while self.byte().map_or(false, test) {
            self.place += 1;
        }
        self.place - from
    }

    fn word(&mut self, word: &str) -> Fits<()> {
        for byte in word.bytes() {
            if self.byte() != Some(byte) {
                return Err(self.place);
            }
            self.place += 1;
        }
        Ok(())
    }

    fn gap(&mut self) -> Fits<()> {
        match self.while_any(|byte| byte == b' ') {
            0 => Err(self.place),
            _ => Ok(()),
        }
    }

    fn end(&mut self) -> Fits<()> {
        self.while_any(|byte| byte == b' ');
        match self.byte() {
            None => Ok(()),
            Some(_) => Err(self.place),
        }
    }

    /// The digits from here on, as a number that began at `first`.
    fn digits(&mut self, first: usize, base: u32, test: fn(u8) -> bool) -> Fits<u64> {
        let from = self.place;
        if self.while_any(test) == 0 {
            return Err(self.place);
        }
        let mut value: u64 = 0;
        for byte in &self.line[from..self.place] {
            let digit = char::from(*byte).to_digit(base).expect("a digit");
            let more = value.checked_mul(base.into()).and_then(|v| v.checked_add(digit.into()));
            value = more.ok_or(first)?;
        }
        Ok(value)
    }

    fn decimal(&mut self) -> Fits<u64> {
        self.digits(self.place, 10, |byte| byte.is_ascii_digit())
    }

    fn number(&mut self) -> Fits<u64> {
        let first = self.place;
        if !matches!(self.line[first..], [b'0', b'x' | b'X', ..]) {
            return self.decimal();
        }
        self.place += 2;
        self.digits(first, 16, |byte| byte.is_ascii_hexdigit())
    }

    /// Its first place, and the place behind its last.
    fn name(&mut self) -> Fits<[u64; 2]> {
        let from = self.place;
        match self.while_any(|byte| byte > 0x20) {
            0 => Err(from),
            _ => Ok([from as u64, self.place as u64]),
        }
    }

    /// A gap and the word, or the place where one of them failed, and no move.
    fn setting_begins(&mut self, word: &str) -> bool {
        let from = self.place;
        match self.gap().and_then(|()| self.word(word)) {
            Ok(()) => true,
            Err(place) => {
                self.left_out = self.left_out.max(place);
                self.place = from;
                false
            }
        }
    }

    fn settings(&mut self, holds: &mut Vec<u64>) -> Fits<()> {
        for (word, value) in SETTINGS {
            if self.setting_begins(word) {
                self.gap()?;
                holds.push(self.number()?);
            } else {
                holds.push(value);
            }
        }
        Ok(())
    }

    /// The place among the letters, if one of them stands here.
    fn letter(&mut self, letters: &[u8]) -> Option<u64> {
        let found = letters.iter().position(|letter| self.byte() == Some(*letter))?;
        self.place += 1;
        Some(found as u64)
    }

    fn shape(&mut self, holds: &mut Vec<u64>) -> Fits<()> {
        let (mut count, mut format, mut unit) = (1, 0, 2);
        if self.byte() == Some(b'/') {
            self.place += 1;
            if self.byte().map_or(false, |byte| byte.is_ascii_digit()) {
                count = self.decimal()?;
            }
            format = self.letter(FORMATS).unwrap_or(format);
            unit = self.letter(UNITS).unwrap_or(unit);
        }
        holds.extend([count, format, unit]);
        Ok(())
    }

    fn part(&mut self, part: &Part, holds: &mut Vec<u64>) -> Fits<()> {
        match part {
            Part::Word(word) => self.word(word)?,
            Part::Gap => self.gap()?,
            Part::Number => holds.push(self.number()?),
            Part::Name => holds.extend(self.name()?),
            Part::Settings => self.settings(holds)?,
            Part::Shape => self.shape(holds)?,
        }
        Ok(())
    }

    fn form(&mut self, parts: &[Part], holds: &mut Vec<u64>) -> Fits<()> {
        for part in parts {
            self.part(part, holds)?;
        }
        self.end()
    }
}

fn heard(kind: u64, holds: &[u64]) -> Heard {
    let mut heard = [0; 11];
    heard[0] = kind;
    heard[1..][..holds.len()].copy_from_slice(holds);
    heard
}

/// The forms, each with its parts.
pub struct Page(Vec<(Form, Vec<Part>)>);

impl Page {
    pub fn new() -> Page {
        Page(FORMS.iter().map(|form| (*form, parts(form.1))).collect())
    }

    pub fn read(&self, line: &[u8]) -> Heard {
        let start = line.iter().take_while(|&&byte| byte == b' ').count();
        if start == line.len() || line[start] == b'#' {
            return heard(NOTHING, &[]);
        }
        let mut furthest = start;
        let mut commands = Vec::new();
        for ((kind, _, behind), parts) in &self.0 {
            let mut reader = Reader { line, place: start, left_out: start };
            let mut holds = Vec::new();
            match reader.form(parts, &mut holds) {
                Ok(()) => {
                    holds.extend(*behind);
                    commands.push(heard(*kind, &holds));
                }
                Err(place) => furthest = furthest.max(place).max(reader.left_out),
            }
        }
        assert!(commands.len() <= 1, "two forms fit one line");
        commands.pop().unwrap_or_else(|| heard(REFUSED, &[furthest as u64]))
    }
}
