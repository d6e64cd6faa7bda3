//! One sequence in the making: each call on both sides, the journal's place
//! counted beside them, and at the end a machine that never went back.

use crate::call::Call;
use crate::report::{different, unpacked};
use crate::sides::{Both, Buffers, Sides};
use crate::stepped::Stepped;
use reference::{Answer, TWO_MATCHES};

#[derive(Default)]
pub struct Met {
    pub sequences: u64,
    pub by_start: [u64; 3],
    pub by_slots: [u64; 6],
    pub runs: u64,
    pub steps: u64,
    pub halts: u64,
    pub zero: u64,
    pub all: u64,
    pub one_more: u64,
    pub huge: u64,
    /// Numbers whose low half alone would be done.
    pub low_half: u64,
    pub by_number: [u64; 10],
    pub from_full: u64,
    pub back_to_start: u64,
    pub stepped: Stepped,
}

pub struct Sequence<'a> {
    what: String,
    log: Vec<String>,
    sides: Sides,
    began: Buffers,
    slots: u64,
    /// Where the journal has to stand, counted here.
    on_hand: u64,
    next_slot: u64,
    /// Steps run less steps taken back.
    net: u64,
    pub met: &'a mut Met,
}

impl Sequence<'_> {
    /// With a reset, if its parameters are given.
    pub fn start(what: String, call: Call, reset: Option<[u64; 3]>, met: &mut Met) -> Sequence<'_> {
        let slots = call.slots() as u64;
        let mut sequence = Sequence {
            what,
            log: Vec::new(),
            sides: Sides::new(call),
            began: Buffers::default(),
            slots,
            on_hand: 0,
            next_slot: 0,
            net: 0,
            met,
        };
        if let Some(parameters) = reset {
            let both = sequence.sides.reset(parameters);
            sequence.checked(format!("reset with {parameters:?}"), both);
        }
        let machine = sequence.sides.machine();
        sequence.on_hand = machine.on_hand.into();
        sequence.next_slot = machine.next_slot.into();
        sequence.began = sequence.sides.beginning();
        sequence
    }

    pub fn on_hand(&self) -> u64 {
        self.on_hand
    }

    fn checked(&mut self, call: String, both: Both) -> Answer {
        match both {
            Ok(answer) => {
                self.log.push(format!("{call}: {}", unpacked(answer.packed())));
                answer
            }
            Err(lines) => {
                self.log.push(call);
                self.fail(lines)
            }
        }
    }

    fn fail(&self, lines: Vec<String>) -> ! {
        let all: Vec<String> = [self.what.clone()].into_iter().chain(self.log.clone()).collect();
        different("a sequence", &[all, lines].concat())
    }

    fn check_place(&self) {
        let machine = self.sides.machine();
        let place = (u64::from(machine.on_hand), u64::from(machine.next_slot));
        if place != (self.on_hand, self.next_slot) {
            let counted = (self.on_hand, self.next_slot);
            self.fail(vec![format!("on hand and next slot {place:?}, not {counted:?}")]);
        }
    }

    pub fn run(&mut self, budget: u64, stop: u64) {
        let both = self.sides.run(budget, stop);
        let answer = self.checked(format!("run of {budget}, stop {stop:#x}"), both);
        if answer.number != 0 {
            self.fail(vec!["a run was refused".to_string()]);
        }
        let steps = u64::from(answer.steps);
        self.met.runs += 1;
        self.met.steps += steps;
        self.met.halts += u64::from(answer.reason == TWO_MATCHES);
        self.net += steps;
        if self.slots != 0 {
            self.on_hand = self.slots.min(self.on_hand + steps);
            self.next_slot = (self.next_slot + steps) % self.slots;
        }
        self.check_place();
    }

    pub fn take_back(&mut self, steps: u64) {
        let before = self.sides.machine();
        let both = self.sides.take_back(steps);
        let answer = self.checked(format!("take-back of {steps}"), both);
        let most = self.on_hand;
        self.met.zero += u64::from(steps == 0);
        self.met.all += u64::from(steps == most && most > 0);
        self.met.one_more += u64::from(steps == most + 1);
        self.met.huge += u64::from(steps > u64::from(u32::MAX));
        self.met.low_half +=
            u64::from(steps > u64::from(u32::MAX) && u64::from(steps as u32) <= most);
        self.met.by_number[answer.number as usize] += 1;
        // Records that no step has written are the only ones that may be bad.
        let expected: &[u8] = match (steps > most, steps > self.net) {
            (true, _) => &[7],
            (false, true) => &[0, 8],
            (false, false) => &[0],
        };
        if !expected.contains(&answer.number) {
            self.fail(vec![format!("the number is not one of {expected:?}")]);
        }
        if answer.number != 0 {
            return self.check_place();
        }
        let full = steps > 0 && most == self.slots;
        self.met.from_full += u64::from(full);
        self.met.stepped.count(&before, &self.sides.theirs.journal, answer.steps);
        self.on_hand -= steps;
        if self.slots != 0 {
            self.next_slot = (self.next_slot + self.slots - steps) % self.slots;
        }
        self.net = self.net.checked_sub(steps).unwrap_or_else(|| {
            self.fail(vec!["random bytes were taken for the record of a step".to_string()])
        });
        self.met.back_to_start += u64::from(steps > 0 && self.net == 0);
        self.check_place();
    }

    /// Demand 3: what was run less what was taken back, from the start.
    pub fn end(self) {
        if !self.sides.is_behind(&self.began, self.net) {
            self.fail(vec![format!("not the state of {} steps from the start", self.net)]);
        }
    }
}
