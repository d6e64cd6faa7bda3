//! The loops, with translation off and on, beside the filling of the journal.

use crate::loops::{Loop, FRAMES, LOOPS, PRINTING};
use crate::rounds::Case;
use crate::sitting::{sit, Figures};
use crate::tables;

pub const SLOTS: [usize; 3] = [0, 16, 32_768];

const STEPS: u64 = 1_000_000;
const ROUNDS: usize = 4;

/// A loop as it is run.
#[derive(Clone, Copy)]
pub struct Kind {
    pub program: &'static Loop,
    pub translated: bool,
}

impl Kind {
    pub fn name(&self) -> String {
        let how = if self.translated { ", translated" } else { "" };
        format!("{}{how}", self.program.name)
    }
}

pub fn kinds() -> Vec<Kind> {
    let of = |program: &'static Loop, translated| Kind { program, translated };
    let mut kinds: Vec<Kind> =
        LOOPS.iter().flat_map(|program| [of(program, false), of(program, true)]).collect();
    kinds.push(of(&PRINTING, false));
    kinds
}

fn case(kind: Kind, slots: usize) -> Case {
    let start = Box::new(move || kind.program.station(kind.translated, slots, FRAMES));
    Case { name: kind.name(), slots, steps: STEPS, start }
}

/// The highest ratio of all.
pub fn table() -> f64 {
    let kinds = kinds();
    let cases: Vec<Case> =
        kinds.iter().flat_map(|kind| SLOTS.map(|slots| case(*kind, slots))).collect();
    let all = sit("loops", &cases, ROUNDS);
    let what =
        "Endless loops, 1,000,000 steps a call. Last: the archive's and the reference's time \
                to those of the\nsame row without translation, and the archive's to filling the \
                same bytes of journal.";
    tables::head(what, "   to untranslated: a., r.   filling  to filling");
    for (at, (case, figures)) in cases.iter().zip(&all).enumerate() {
        let translated = kinds[at / SLOTS.len()].translated;
        let plain = if translated { at.checked_sub(SLOTS.len()) } else { None };
        tables::row(case, figures, &more(case, figures, plain.map(|plain| &all[plain])));
    }
    all.iter().map(|figures| figures.ratio).fold(0.0, f64::max)
}

fn more(case: &Case, figures: &Figures, plain: Option<&Figures>) -> String {
    let to_plain = plain.map_or(String::new(), |plain| {
        let (archive, reference) =
            (figures.archive / plain.archive, figures.reference / plain.reference);
        format!("{archive:.2}  {reference:.2}")
    });
    let filling = if case.slots < 32_768 {
        String::new()
    } else {
        format!("{:>10.2}{:>12.2}", figures.filling, figures.to_filling)
    };
    format!("{to_plain:>27}{filling}").trim_end().to_string()
}
