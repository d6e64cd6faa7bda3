//! Tables that a person reads.

use crate::rounds::Case;
use crate::sitting::Figures;

pub fn head(what: &str, more: &str) {
    println!("\n{what}");
    let columns = ["slots", "archive", "reference", "ratio"];
    let [slots, archive, reference, ratio] = columns;
    println!("{:<28}{slots:>7}{archive:>10}{reference:>11}{ratio:>8}{more}", "ns a step, medians");
}

pub fn row(case: &Case, figures: &Figures, more: &str) {
    let Figures { archive, reference, ratio, .. } = figures;
    let Case { name, slots, .. } = case;
    println!("{name:<28}{slots:>7}{archive:>10.2}{reference:>11.2}{ratio:>8.2}{more}");
}

/// 1000000 as 1,000,000.
pub fn number(value: u64) -> String {
    let digits = value.to_string();
    let groups = digits.as_bytes().rchunks(3).rev();
    let texts: Vec<&str> = groups.map(|group| std::str::from_utf8(group).unwrap_or("")).collect();
    texts.join(",")
}
