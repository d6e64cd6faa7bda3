//! On what the figures were taken.

use std::env::consts::ARCH;
use std::fs::read_to_string;

/// The processor's model; Arm's kernel gives numbers in place of a name.
fn model() -> String {
    let text = read_to_string("/proc/cpuinfo").unwrap_or_default();
    let line = |key: &str| {
        let found = text.lines().find(|line| line.starts_with(key))?;
        Some(found.split_once(':')?.1.trim().to_string())
    };
    line("model name").unwrap_or_else(|| match (line("CPU implementer"), line("CPU part")) {
        (Some(maker), Some(part)) => format!("no model name (implementer {maker}, part {part})"),
        _ => "no model name".to_string(),
    })
}

pub fn print() {
    println!("machine: {}; code for {ARCH}", model());
    println!("compiler: {}", env!("BENCH_COMPILER"));
}
