//! A run that is wrong on purpose: the reference step by step, with one fault.

use crate::faults::Fault::{self, *};
use crate::lent::Slices;
use crate::look::look;
use crate::wrong_halts::halts;
use reference::layout::RECORD_BYTES;
use reference::{decode, encode, step, Answer, Machine, Memory, NoRecord};
use reference::{BUDGET_SPENT, EXCEPTION, TWO_MATCHES};

impl Slices<'_> {
    fn machine(&self) -> Machine {
        decode(self.image)
    }

    fn halts(&mut self, fault: Fault, stop: u64) -> bool {
        let machine = self.machine();
        let look = look(&machine, &self.memory());
        halts(fault, &machine, &look, stop)
    }

    fn memory(&mut self) -> Memory<'_> {
        Memory {
            execution_rom: self.execution,
            bootstrap_rom: self.bootstrap,
            ram: self.ram,
            paper: self.paper,
            disks: reference::no_disks(),
        }
    }

    /// One step, also where a run would stop before it; then without a record.
    fn step(&mut self, stop: u64) -> u8 {
        let Slices { image, execution, bootstrap, ram, paper, journal, index } = self;
        let answer = reference::diskless::run_with_records(
            image, execution, bootstrap, ram, paper, journal, index, 1, stop,
        );
        if answer.reason != TWO_MATCHES {
            return answer.reason;
        }
        let mut machine = self.machine();
        let entered = step(&mut machine, &mut self.memory(), &mut NoRecord);
        encode(&machine, self.image);
        if entered && stop != 0 {
            EXCEPTION
        } else {
            BUDGET_SPENT
        }
    }

    /// What a halt must not do.
    fn spoil(&mut self, fault: Fault) {
        let mut machine = self.machine();
        let slots = (self.journal.len() / RECORD_BYTES) as u32;
        let slot = RECORD_BYTES * machine.next_slot as usize;
        match fault {
            ClockMoves => machine.clock = machine.clock.wrapping_add(1),
            RandomMoves if machine.random > 0x100 => machine.random -= 0x100,
            TimerMoves => machine.timer = machine.timer.wrapping_sub(1),
            TimerLineOn if machine.timer == 0 => machine.cause |= 0x400,
            PrinterMoves => {
                for printer in machine.printers.iter_mut().filter(|it| it.ticks_left > 1) {
                    printer.ticks_left -= 1;
                }
            }
            PaperWritten if machine.printers[0].ticks_left == 1 && !self.paper.is_empty() => {
                let place = machine.printers[0].paper_count as usize % (self.paper.len() / 8);
                self.paper[place] ^= machine.printers[0].data0 as u8;
            }
            PcMoves => machine.pc = machine.next_pc,
            OnHandMoves if machine.on_hand < slots => machine.on_hand += 1,
            NextSlotMoves if slots > 1 => machine.next_slot = (machine.next_slot + 1) % slots,
            RecordWritten if slots > 0 => self.journal[slot..slot + RECORD_BYTES].fill(0),
            _ => {}
        }
        encode(&machine, self.image);
    }

    pub fn run(&mut self, fault: Fault, budget: u64, stop: u64) -> Answer {
        let mut steps = 0;
        loop {
            let spent = u64::from(steps) == budget;
            let halted = (!spent || fault == BeforeTheBudget) && self.halts(fault, stop);
            if spent && !halted {
                return Answer::done(BUDGET_SPENT, steps);
            }
            if halted && !(fault == SecondRunGoesOn && steps == 0) {
                self.spoil(fault);
                let reason = match fault {
                    ReasonOfTheBudget => BUDGET_SPENT,
                    ReasonOfAnException => EXCEPTION,
                    _ => TWO_MATCHES,
                };
                return Answer::done(reason, steps + u32::from(fault == StepCounted));
            }
            steps += 1;
            if self.step(stop) == EXCEPTION {
                return Answer::done(EXCEPTION, steps);
            }
        }
    }
}
