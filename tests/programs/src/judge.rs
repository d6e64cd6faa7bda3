//! One program in one mode: run, and compared with what qemu-mipsel said.

use crate::dice::Dice;
use crate::elf::segments;
use crate::expected::Expected;
use crate::mode::{Mode, Setting};
use crate::session::{run, Outcome, TOO_MANY};
use crate::station::{Roms, Station};
use std::fs::read;
use std::path::Path;

/// A name that ends so is of a program that prints.
const PRINTS: &str = ".printer";

/// IEp, KUp and VMp. The start's RFE makes them current, and the entry at the end
/// moves them back.
const PROGRAM_MODE: u32 = 0x0200_000C;

/// Code, data and stack are on pages of their own.
const LEAST_MISSES: u32 = 3;

/// Not all programs are for all modes: the device area is not for user mode, and the
/// trap of `ends7` is for no other.
pub fn fits(name: &str, mode: Mode) -> bool {
    match mode {
        Mode::Plain | Mode::Paged => !name.starts_with("ends7"),
        Mode::User => !name.ends_with(PRINTS),
    }
}

/// An error says what was not equal.
pub fn judge(
    folder: &Path,
    name: &str,
    roms: &Roms,
    mode: Mode,
    dice: &mut Dice,
) -> Result<Outcome, String> {
    let file = read(folder.join(format!("{name}.elf"))).expect("a program");
    let slots = dice.pick(&[0, 1, 2, 61, 256, 1000]);
    let delay = u64::from(dice.between(1, 60));
    let setting = mode.setting(dice);
    let start = Station::new(&segments(&file), &setting, slots, dice);
    let outcome = run(start, roms, mode, delay, TOO_MANY, dice)?;
    as_under_qemu(&outcome, name, &Expected::read(folder, name))?;
    in_its_mode(&outcome, mode, &setting)?;
    Ok(outcome)
}

fn as_under_qemu(outcome: &Outcome, name: &str, expected: &Expected) -> Result<(), String> {
    let output = if name.ends_with(PRINTS) { printed(outcome) } else { &outcome.written };
    if output != expected.output {
        let pairs = output.iter().zip(&expected.output);
        return Err(format!(
            "{} bytes of output, qemu-mipsel's are {}; the first {} are equal",
            output.len(),
            expected.output.len(),
            pairs.take_while(|(our, their)| our == their).count()
        ));
    }
    let end = expected.end(name)?;
    if outcome.end != end {
        return Err(format!("ended with {:?}, not {end:?}", outcome.end));
    }
    Ok(())
}

/// What printer 0 put on its eighth of the paper.
fn printed(outcome: &Outcome) -> &[u8] {
    let count = outcome.station.machine().printers[0].paper_count;
    &outcome.station.paper[..count as usize]
}

/// A run without what its mode is for would prove nothing.
fn in_its_mode(outcome: &Outcome, mode: Mode, setting: &Setting) -> Result<(), String> {
    let status = outcome.station.machine().status.0;
    if (status ^ setting.status) & PROGRAM_MODE != 0 {
        return Err(format!("Status {status:#x} at the end: not in the mode of its start"));
    }
    let (ticks, misses) = (outcome.station.ticks(), outcome.station.misses());
    if u64::from(ticks) < outcome.steps / (2 * u64::from(setting.period)) {
        return Err(format!("only {ticks} timer interrupts in {} steps", outcome.steps));
    }
    if mode == Mode::Paged && misses < LEAST_MISSES {
        return Err(format!("only {misses} TLB misses"));
    }
    Ok(())
}
