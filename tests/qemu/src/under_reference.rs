//! The same cases under the reference emulator.

use reference::diskless::{reset, run};
use reference::{decode, encode, Machine, Status, EXCEPTION, IMAGE_BYTES};

use crate::case::{
    block_at, bytes_of, words_of, Case, State, BLOCK_WORDS, CODE_AT, CODE_WORDS, STATES_AT,
};

const RAM_BASE: u32 = 0x2000_0000;
const RAM_BYTES: usize = 0x54_0000;

/// More steps than any case has instructions.
const BUDGET: u64 = 8;

const SIGTRAP: u32 = 5;
const SIGFPE: u32 = 8;
const SIGBUS: u32 = 10;

pub struct Reference {
    ram: Vec<u8>,
    machine: Machine,
}

impl Reference {
    pub fn new() -> Reference {
        let mut image = [0; IMAGE_BYTES];
        assert_eq!(reset(&mut image, &mut [0; 16], 1, 1, 0).number, 0);
        let mut machine = decode(&image);
        machine.status = Status(0);
        Reference { ram: vec![0; RAM_BYTES], machine }
    }

    pub fn run(&mut self, cases: &[Case]) -> Vec<State> {
        let states = bytes_of(cases.iter().flat_map(|case| case.before.words()));
        let code = bytes_of(cases.iter().flat_map(|case| case.code));
        self.put(STATES_AT, &states);
        self.put(CODE_AT, &code);
        assert_eq!(code.len(), cases.len() * CODE_WORDS * 4);
        cases.iter().enumerate().map(|(slot, case)| self.run_one(slot, &case.before)).collect()
    }

    fn put(&mut self, address: u32, bytes: &[u8]) {
        let place = (address - RAM_BASE) as usize;
        self.ram[place..place + bytes.len()].copy_from_slice(bytes);
    }

    fn run_one(&mut self, slot: usize, before: &State) -> State {
        let machine = &mut self.machine;
        machine.registers = before.registers;
        machine.hi = before.hi;
        machine.lo = before.lo;
        machine.pc = before.pc;
        machine.next_pc = before.pc + 4;
        let mut image = [0; IMAGE_BYTES];
        encode(machine, &mut image);
        let rom = [0; 4];
        let answer = run(&mut image, &rom, &rom, &mut self.ram, &mut [], &mut [], BUDGET, 1);
        assert_eq!(answer.number, 0);
        let after = decode(&image);
        let block = (block_at(slot) - RAM_BASE) as usize;
        State {
            registers: after.registers,
            hi: after.hi,
            lo: after.lo,
            pc: after.epc,
            signal: if answer.reason == EXCEPTION { signal_of(after.cause) } else { 0 },
            block: words_of(&self.ram[block..block + BLOCK_WORDS * 4]).try_into().unwrap(),
        }
    }
}

/// What Linux makes of an exception.
fn signal_of(cause: u32) -> u32 {
    match cause >> 2 & 31 {
        4 | 5 => SIGBUS,
        9 => SIGTRAP,
        12 => SIGFPE,
        _ => 0,
    }
}
