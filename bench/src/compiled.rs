//! Compiled C programs of tests/programs, under its small kernel.

use crate::dice::Dice;
use crate::elf::segments;
use crate::mode::Mode;
use crate::program;
use crate::rounds::Case;
use crate::sitting::sit;
use crate::station::Station;
use crate::tables::{self, number};
use reference::diskless::{reset, run_with_records};
use reference::layout::RECORD_BYTES;
use reference::{decode, EXCEPTION, IMAGE_BYTES};
use std::fs::read;
use std::path::Path;
use std::rc::Rc;

const PROGRAMS: [&str; 6] = ["crc.O2", "sha.O2", "sieve.O2", "sort.O2", "matrix.O2", "import.O1"];
const MODES: [Mode; 2] = [Mode::Plain, Mode::Paged];
const SLOTS: [usize; 2] = [0, 32_768];
const ROUNDS: usize = 3;

const SYSTEM_CALL: u32 = 8;
const EXIT: u32 = 4001;

fn station(folder: &Path, name: &str, mode: Mode, slots: usize) -> Station {
    let file = |name: &str| read(folder.join(name)).expect("what compile.sh has made");
    let dice = &mut Dice::new(1);
    let setting = mode.setting(dice);
    let laid = program::Station::new(&segments(&file(&format!("{name}.elf"))), &setting, 0, dice);
    let (mut image, mut index) = (vec![0; IMAGE_BYTES], laid.index);
    reset(&mut image, &mut index, 1, 100, 0xFF);
    let roms = Rc::new([file("execution.rom"), file("bootstrap.rom")]);
    let (ram, paper, journal) = (laid.ram, laid.paper, vec![1; RECORD_BYTES * slots]);
    Station { image, roms, ram, paper, journal, index }
}

/// To the call of the system that ends the program, as the reference runs it;
/// and the interrupts and misses on the way.
fn length(mut station: Station) -> (u64, u64) {
    let (mut steps, mut met) = (0, 0);
    loop {
        let answer = station.to_exception(run_with_records);
        assert_eq!(answer.number, 0, "a program's run is not refused");
        steps += u64::from(answer.steps);
        let machine = decode(&station.image);
        let called = answer.reason == EXCEPTION && machine.cause >> 2 & 31 == SYSTEM_CALL;
        if called && machine.registers[2] == EXIT {
            return (steps, met);
        }
        met += u64::from(answer.reason == EXCEPTION && !called);
    }
}

fn case(folder: &Path, name: &'static str, mode: Mode, slots: usize) -> (Case, u64) {
    let (steps, met) = length(station(folder, name, mode, 0));
    let start = station(folder, name, mode, slots);
    let name = format!("{name}, {}", mode.name());
    (Case { name, slots, steps, start: Box::new(move || start.clone()) }, met)
}

/// The highest ratio of all.
pub fn table(folder: &Path) -> f64 {
    let ways = || MODES.into_iter().flat_map(|mode| SLOTS.map(|slots| (mode, slots)));
    let (cases, met): (Vec<Case>, Vec<u64>) = PROGRAMS
        .iter()
        .flat_map(|name| ways().map(move |(mode, slots)| case(folder, name, mode, slots)))
        .unzip();
    let all = sit("compiled programs", &cases, ROUNDS);
    let what = "Compiled C programs, from reset to their end; paged: translated, with timer \
                interrupts and TLB misses";
    tables::head(what, "      steps   interrupts and misses");
    for ((case, figures), met) in cases.iter().zip(&all).zip(met) {
        let more = format!("{:>11}{:>24}", number(case.steps), number(met));
        tables::row(case, figures, &more);
    }
    all.iter().map(|figures| figures.ratio).fold(0.0, f64::max)
}
