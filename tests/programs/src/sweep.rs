//! The sweep: a program full of branches is interrupted at each of its steps in
//! turn, and ends every time as it does without an interrupt.

use crate::dice::Dice;
use crate::elf::segments;
use crate::expected::Expected;
use crate::lavushmir;
use crate::mode::{Mode, Setting, PROGRAM_FRAMES};
use crate::session::{run, End, Met, Outcome};
use crate::station::{Roms, Station, FRAME, RAM};
use std::fs::read;
use std::path::Path;

/// The step of the bootstrap ROM that sets the timer.
const TIMER_SET: u32 = 4;

/// Far more steps than the program takes, whatever interrupts it.
const LIMIT: u64 = 20_000;

const SLOTS: usize = 7;
const DELAY: u64 = 1;

#[derive(Clone, Copy, PartialEq, Eq)]
enum Way {
    Kernel,
    User,
    /// Translated, and the interrupt empties the table.
    Paged,
    /// In kernel mode, under a kernel that goes back to the slot itself.
    Forgets,
}

impl Way {
    fn name(self) -> &'static str {
        match self {
            Way::Kernel => "kernel mode",
            Way::User => "user mode",
            Way::Paged => "translated",
            Way::Forgets => "a kernel that goes back to the slot",
        }
    }

    /// Which exceptions are no end.
    fn mode(self) -> Mode {
        if self == Way::Paged {
            Mode::Paged
        } else {
            Mode::User
        }
    }

    /// No interrupt but the one that `set_period` asks for.
    fn setting(self) -> Setting {
        let (status, flip) = match self {
            Way::User => (0x0000_040C, 0),
            Way::Paged => (0x0200_0404, PROGRAM_FRAMES << 12),
            Way::Kernel | Way::Forgets => (0x0000_0404, 0),
        };
        let flushed = if self == Way::Paged { 16 << 8 } else { 0 };
        let forget = if self == Way::Forgets { 4 } else { 0 };
        let (period, next_period) = (u32::MAX, u32::MAX);
        Setting { status, period, next_period, page_flip: flip, flushed, forget }
    }
}

/// A step of the program: how many there are up to it, and where it stands.
struct Step {
    number: u32,
    pc: u32,
    /// The branch whose slot it is.
    branch: Option<u32>,
}

/// What the interrupts of a sweep met.
#[derive(Default)]
struct Swept {
    steps: usize,
    in_slots: usize,
    fetches_in_slots: usize,
    accesses_in_slots: usize,
    wrong: usize,
}

impl Swept {
    fn add(&mut self, outcome: &Outcome) {
        self.steps += 1;
        for met in outcome.met.iter().filter(|met| met.in_slot) {
            let count = match met {
                _ if met.is_interrupt() => &mut self.in_slots,
                Met { epc, bad_vaddr, .. } if *bad_vaddr == epc + 4 => &mut self.fetches_in_slots,
                _ => &mut self.accesses_in_slots,
            };
            *count += 1;
        }
    }

    /// What is wrong with a sweep that met too little to show anything.
    fn shows(&self, way: Way) -> Result<(), String> {
        let misses = self.fetches_in_slots > 0 && self.accesses_in_slots > 0;
        match way {
            _ if self.in_slots == 0 => Err("no interrupt in a slot".to_string()),
            Way::Paged if !misses => {
                Err("no miss of a fetch or of a load or store in a slot".to_string())
            }
            Way::Forgets if self.wrong == 0 => Err("the sweep would notice nothing".to_string()),
            _ => Ok(()),
        }
    }

    fn print(&self, name: &str, way: Way) {
        let Swept { steps, in_slots, fetches_in_slots, accesses_in_slots, wrong } = self;
        print!("  {name}, {}: {steps} steps interrupted, {in_slots} in a slot", way.name());
        match way {
            Way::Kernel | Way::User => println!(": all end as without"),
            Way::Paged => println!(
                "; misses in slots: {fetches_in_slots} of fetches, {accesses_in_slots} of loads and stores: all end as without"
            ),
            Way::Forgets => println!(": {wrong} end wrongly, as they should"),
        }
    }
}

/// Every step of the program itself, without an interrupt. The kernel's are left
/// out: interrupts are off in it.
fn steps_of(start: &Station, roms: &Roms, total: u64) -> Vec<Step> {
    let mut station = start.clone();
    lavushmir::reset(&mut station.image, &mut station.index, 1, DELAY, 0xFF);
    let mut steps = Vec::new();
    for number in 1..=total as u32 {
        let machine = station.machine();
        if machine.pc >= RAM && machine.pc < 0x8000_0000 {
            let branch = (machine.slot_flag == 1).then_some(machine.branch_address);
            steps.push(Step { number, pc: machine.pc, branch });
        }
        let Station { image, ram, paper, journal, index } = &mut station;
        let Roms { execution, bootstrap } = roms;
        lavushmir::run(image, execution, bootstrap, ram, paper, journal, index, 1, 0);
    }
    steps
}

/// The interrupt came at that step, and tells whether it is a slot.
fn met_at(outcome: &Outcome, step: &Step) -> Result<(), String> {
    let met: Vec<&Met> = outcome.met.iter().filter(|met| met.is_interrupt()).collect();
    let (epc, in_slot) = (step.branch.unwrap_or(step.pc), step.branch.is_some());
    match met[..] {
        [met] if (met.epc, met.in_slot) == (epc, in_slot) => Ok(()),
        [met] => Err(format!("EPC {:#x}, BD {}, not {epc:#x}, {in_slot}", met.epc, met.in_slot)),
        _ => Err(format!("{} interrupts", met.len())),
    }
}

/// Output, end, RAM but the mailbox, and registers but the kernel's own two.
fn same_end(outcome: &Outcome, without: &Outcome) -> Result<(), String> {
    if (outcome.end, &outcome.written) != (without.end, &without.written) {
        return Err(format!("{:?} or other output, not {:?}", outcome.end, without.end));
    }
    let (ours, theirs) = (&outcome.station.ram[FRAME..], &without.station.ram[FRAME..]);
    if let Some(at) = ours.iter().zip(theirs).position(|(our, their)| our != their) {
        return Err(format!("byte {:#x} of RAM", FRAME + at));
    }
    let (ours, theirs) = (outcome.station.machine(), without.station.machine());
    let own = |number: &usize| !(26..28).contains(number);
    match (0..32).filter(own).find(|number| ours.registers[*number] != theirs.registers[*number]) {
        Some(number) => Err(format!("register {number}")),
        None if (ours.hi, ours.lo) != (theirs.hi, theirs.lo) => Err("HI or LO".to_string()),
        None => Ok(()),
    }
}

fn sweep(
    start: &Station,
    roms: &Roms,
    way: Way,
    without: &Outcome,
    dice: &mut Dice,
) -> Result<Swept, String> {
    let mut swept = Swept::default();
    for step in steps_of(start, roms, without.steps) {
        let place = |wrong| format!("{}, interrupted at {:#x}: {wrong}", way.name(), step.pc);
        let mut interrupted = start.clone();
        interrupted.set_period(step.number - TIMER_SET - 1);
        let outcome = run(interrupted, roms, way.mode(), DELAY, LIMIT, dice).map_err(place)?;
        met_at(&outcome, &step).map_err(place)?;
        match same_end(&outcome, without) {
            Err(_) if way == Way::Forgets && step.branch.is_some() => swept.wrong += 1,
            same => same.map_err(place)?,
        }
        swept.add(&outcome);
    }
    swept.shows(way).map_err(|wrong| format!("{}: {wrong}", way.name()))?;
    Ok(swept)
}

/// One program in every way, and what qemu-mipsel says of it where it has been asked.
fn sweep_one(
    folder: &Path,
    name: &str,
    roms: &Roms,
    asked: bool,
    dice: &mut Dice,
) -> Result<(), String> {
    let file = read(folder.join(format!("{name}.elf"))).expect("a program");
    for way in [Way::Kernel, Way::User, Way::Paged, Way::Forgets] {
        let start = Station::new(&segments(&file), &way.setting(), SLOTS, dice);
        let without = run(start.clone(), roms, way.mode(), DELAY, LIMIT, dice)?;
        if !matches!(without.end, End::Exit(_)) {
            return Err(format!("{name}, {}: without an interrupt {:?}", way.name(), without.end));
        }
        if asked {
            let expected = Expected::read(folder, name);
            if (without.end, &without.written) != (expected.end(name)?, &expected.output) {
                return Err(format!(
                    "{name}, {}: other output or end than qemu-mipsel's",
                    way.name()
                ));
            }
        }
        sweep(&start, roms, way, &without, dice)
            .map_err(|wrong| format!("{name}, {wrong}"))?
            .print(name, way);
    }
    Ok(())
}

/// An error says what was not equal.
pub fn sweep_all(folder: &Path, roms: &Roms, dice: &mut Dice) -> Result<(), String> {
    println!("sweep: an interrupt at each step");
    sweep_one(folder, "branches", roms, true, dice)?;
    sweep_one(folder, "nested", roms, false, dice)
}
