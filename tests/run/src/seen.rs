//! What the runs have met, counted with the reference step by step.

use crate::access_corners::ACCESSES;
use crate::book;
use crate::call::{Call, Outcome};
use crate::call_corners::CALLS;
use crate::corners::STEPS;
use crate::look::{translation, user_mode};
use crate::printed::Printed;
use crate::sight::{see, Sight};
use reference::decode;

/// Of a long run only the start is looked at again.
const MOST_STEPS: u64 = 1_000;

pub const VECTORS: [u32; 4] = [0x0, 0x80, 0x1FC0_0100, 0x1FC0_0180];

#[derive(Default)]
pub struct Seen {
    pub runs: u64,
    pub steps: u64,
    pub calls_met: Vec<u64>,
    pub user_runs: u64,
    pub translated_runs: u64,
    pub both_runs: u64,
    /// Times that next slot went from the last to the first, with 2 slots or more.
    pub wraps: u64,
    pub full_journals: u64,
    pub looked_at: u64,
    pub by_code: [u64; 13],
    pub by_line: [u64; 8],
    pub by_coprocessor: [u64; 4],
    pub by_vector: [u64; 4],
    pub executed: Vec<u64>,
    pub device_loads: Vec<u64>,
    pub device_stores: Vec<u64>,
    pub moves_from: [u64; 32],
    pub moves_to: [u64; 32],
    pub rows_by_index: [u64; 16],
    pub rows_by_random: [u64; 16],
    pub steps_met: Vec<u64>,
    pub accesses_met: Vec<u64>,
    pub printed: Printed,
}

impl Seen {
    pub fn new() -> Seen {
        Seen {
            executed: vec![0; book::all().count()],
            device_loads: vec![0; 180],
            device_stores: vec![0; 180],
            calls_met: vec![0; CALLS.len()],
            steps_met: vec![0; STEPS.len()],
            accesses_met: vec![0; ACCESSES.len()],
            ..Seen::default()
        }
    }

    pub fn run(&mut self, call: &Call, outcome: &Outcome) {
        let machine = decode(&call.image);
        let (user, translated) = (user_mode(&machine), translation(&machine));
        self.runs += 1;
        self.steps += outcome.steps();
        self.user_runs += u64::from(user);
        self.translated_runs += u64::from(translated);
        self.both_runs += u64::from(user && translated);
        for (count, (_, _, met)) in self.calls_met.iter_mut().zip(&CALLS) {
            *count += u64::from(met(call, outcome));
        }
        let slots = call.slots() as u64;
        if slots > 1 {
            self.wraps += (u64::from(machine.next_slot) + outcome.steps()) / slots;
        }
        let filled = u64::from(machine.on_hand) + outcome.steps() > slots;
        self.full_journals += u64::from(slots != 0 && filled);
        self.look(call, outcome.steps().min(MOST_STEPS));
    }

    fn look(&mut self, call: &Call, steps: u64) {
        let mut machine = decode(&call.image);
        let (mut ram, mut paper) = (call.ram.clone(), call.paper.clone());
        let mut memory = call.memory(&mut ram, &mut paper);
        for _ in 0..steps {
            see(&mut machine, &mut memory, |sight| self.step(sight));
        }
    }

    fn step(&mut self, sight: &Sight) {
        self.looked_at += 1;
        if let Some(code) = sight.code {
            self.entry(sight, code);
        }
        if let Some(word) = sight.done() {
            self.instruction(sight, word);
        }
        for (count, (_, _, met)) in self.steps_met.iter_mut().zip(&STEPS) {
            *count += u64::from(met(sight));
        }
        if sight.data.is_some() {
            for (count, (_, _, met)) in self.accesses_met.iter_mut().zip(&ACCESSES) {
                *count += u64::from(met(sight));
            }
        }
        self.printed.step(sight);
    }

    fn entry(&mut self, sight: &Sight, code: u32) {
        self.by_code[code as usize] += 1;
        if let Some(place) = VECTORS.iter().position(|vector| *vector == sight.after.pc) {
            self.by_vector[place] += 1;
        }
        if code == 11 {
            self.by_coprocessor[(sight.after.cause >> 28 & 3) as usize] += 1;
        }
        if code == 0 {
            let lines = sight.after.cause & sight.before.status.0;
            for (line, count) in self.by_line.iter_mut().enumerate() {
                *count += u64::from(lines >> (8 + line) & 1);
            }
        }
    }

    fn instruction(&mut self, sight: &Sight, word: u32) {
        let number = book::all().position(|which| word & which.mask == which.fixed);
        let number = number.expect("only what is in the book is done without an exception");
        self.executed[number] += 1;
        if let Some(offset) = sight.device_load() {
            self.device_loads[offset as usize / 4] += 1;
        }
        if let Some(offset) = sight.device_store() {
            self.device_stores[offset as usize / 4] += 1;
        }
        match word >> 21 {
            0x200 => self.moves_from[book::rd(word)] += 1,
            0x204 => self.moves_to[book::rd(word)] += 1,
            _ => {}
        }
        if word & 0xFE00_003F == 0x4200_0002 {
            self.rows_by_index[(sight.before.index >> 8 & 15) as usize] += 1;
        }
        if word & 0xFE00_003F == 0x4200_0006 {
            self.rows_by_random[(sight.after.random >> 8) as usize] += 1;
        }
    }
}
