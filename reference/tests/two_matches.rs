//! Request L5: a run stops before a fetch, load or store that meets two entries
//! of the table that match. By the items of its reading.

mod common;

use common::asm::*;
use common::*;
use reference::{decode, no_disks, Answer, History, Status, BUDGET_SPENT, EXCEPTION, TWO_MATCHES};

const CODE: u32 = 0x8000_0000;
const DATA: u32 = 0x9000_0000;
const LOADS: [u32; 7] = [0x20, 0x21, 0x22, 0x23, 0x24, 0x25, 0x26];
const STORES: [u32; 5] = [0x28, 0x29, 0x2A, 0x2B, 0x2E];
const IE: u32 = 1;
const IM: u32 = 0xFF00;
const GOOD: u32 = VALID | DIRTY;

/// Code in RAM behind one entry, register 4 in the data page, which has none.
fn translated(words: &[u32]) -> Bench {
    Bench::with(words)
        .entry(12, CODE, RAM | VALID | GLOBAL)
        .pc(CODE)
        .status(KERNEL | VM)
        .register(4, DATA + 0x40)
}

/// The same with two entries for the data page.
fn doubled(words: &[u32]) -> Bench {
    translated(words).entry(3, DATA, (RAM + 0x1000) | GOOD | GLOBAL).entry(
        7,
        DATA,
        (RAM + 0x1000) | GOOD | GLOBAL,
    )
}

fn with_status(bits: u32, mut bench: Bench) -> Bench {
    bench.machine.status = Status(bench.machine.status.0 | bits);
    bench
}

/// Halts after so many steps, with records and without, stop asked for or not:
/// all bytes are those of a run with just that budget.
fn halts(steps: u32, start: Bench) {
    for stop in [0, 1] {
        let mut bench = start.clone();
        assert_eq!(bench.run_records(50, stop), Answer::done(TWO_MATCHES, steps));
        let mut spent = start.clone();
        assert_eq!(spent.run_records(steps.into(), 0), Answer::done(BUDGET_SPENT, steps));
        assert_eq!(bench, spent);
        let (mut plain, mut plain_spent) = (start.clone(), start.clone());
        assert_eq!(plain.run_with(50, stop), Answer::done(TWO_MATCHES, steps));
        plain_spent.run_with(steps.into(), 0);
        assert_eq!(plain, plain_spent);
    }
}

/// The first step is taken and enters this exception.
fn raises(code: u32, bench: Bench) {
    assert_eq!(bench.trap(1).code(), code);
}

#[test]
fn item_1_fetch_load_and_store() {
    for opcode in LOADS.into_iter().chain(STORES) {
        halts(0, doubled(&[immediate(opcode, 4, 6, 0)]));
        halts(2, doubled(&[NOP, NOP, immediate(opcode, 4, 6, 0)]));
        translated(&[immediate(opcode, 4, 6, 0)])
            .entry(7, DATA, (RAM + 0x1000) | GOOD | GLOBAL)
            .run(1);
    }
    halts(0, translated(&[NOP]).entry(15, CODE, RAM | VALID | GLOBAL));
    halts(2, doubled(&[jr(4), NOP]));
}

#[test]
fn item_1_v_d_and_frames_do_not_matter() {
    for bits in 0..16 {
        for (low, high) in [(RAM, RAM), (RAM, RAM + 0x1000), (0x7000_0000, BUS)] {
            let first = low | (bits & 3) << 9 | GLOBAL;
            let second = high | (bits >> 2) << 9 | GLOBAL;
            for word in [lw(6, 0, 4), sw(6, 0, 4)] {
                halts(0, translated(&[word]).entry(0, DATA, first).entry(15, DATA, second));
            }
            halts(0, translated(&[]).pc(DATA).entry(0, DATA, first).entry(15, DATA, second));
        }
    }
}

#[test]
fn item_1_a_match_is_by_asid_or_g() {
    let two = |first: (u32, u32), second: (u32, u32)| {
        let mut bench = translated(&[lw(6, 0, 4)])
            .entry(3, DATA | first.0, (RAM + 0x1000) | VALID | first.1)
            .entry(7, DATA | second.0, (RAM + 0x1000) | VALID | second.1);
        bench.machine.entry_hi = 0x1234_5040;
        bench
    };
    let (own, other, global) = (0x40, 0x80, GLOBAL);
    for pair in [
        ((own, 0), (own, 0)),
        ((own, 0), (other, global)),
        ((other, global), (own, 0)),
        ((other, global), (0xFC0, global)),
        ((own, global), (own, global)),
    ] {
        halts(0, two(pair.0, pair.1));
    }
    two((own, 0), (other, 0)).run(1);
    two((other, 0), (own, 0)).run(1);
    two((other, global), (other, 0)).run(1);
    assert_eq!(two((other, 0), (other, 0)).trap(1).machine.pc, 0);
    // G lets the ASID differ, never the page.
    two((own, 0), (own, global)).entry(3, DATA + 0x1000, RAM | VALID | GLOBAL).run(1);
}

#[test]
fn item_1_every_pair_of_entries() {
    for first in 0..16 {
        for second in (0..16).filter(|second| *second != first) {
            let mut bench = Bench::new().status(VM).pc(BOOT).register(4, DATA);
            put_words(&mut bench.bootstrap, 0, &[lw(6, 0, 4)]);
            halts(0, bench.entry(first, DATA, RAM | VALID).entry(second, DATA, RAM));
        }
    }
    let all = (0..16).fold(doubled(&[]), |bench, row| bench.entry(row, CODE, RAM | VALID));
    halts(0, all);
}

#[test]
fn item_1_only_a_translated_access() {
    // Translation off; below 0x20000000; the page of no access.
    doubled(&[lw(6, 0, 4)]).status(KERNEL).pc(RAM).trap(1);
    for page in [0, BUS, BOOT] {
        let bench = translated(&[lw(6, 0, 4)]).register(4, page);
        bench.entry(1, page, RAM | VALID | GLOBAL).entry(2, page, RAM | VALID | GLOBAL).run(1);
    }
    doubled(&[NOP, addiu(4, 4, 1), special(33, 4, 4, 6)]).run(3);
}

#[test]
fn item_2_alignment_comes_first() {
    for (opcode, off) in [(0x21, 1), (0x25, 1), (0x23, 1), (0x23, 2), (0x23, 3)] {
        raises(4, doubled(&[immediate(opcode, 4, 6, off)]));
    }
    for (opcode, off) in [(0x29, 1), (0x2B, 1), (0x2B, 2), (0x2B, 3)] {
        raises(5, doubled(&[immediate(opcode, 4, 6, off)]));
    }
    for off in 1..4 {
        raises(4, doubled(&[]).pc(DATA + off));
        for opcode in [0x20, 0x22, 0x24, 0x26, 0x28, 0x2A, 0x2E] {
            halts(0, doubled(&[immediate(opcode, 4, 6, off)]));
        }
    }
}

#[test]
fn item_2_privilege_comes_first() {
    let below = 0x7FFF_F000;
    let user = |word| {
        let bench = translated(&[word]).status(USER | VM).register(4, below);
        bench.entry(3, below, RAM | GOOD | GLOBAL).entry(7, below, RAM | GOOD | GLOBAL)
    };
    for opcode in LOADS {
        raises(4, user(immediate(opcode, 4, 6, 0)));
    }
    for opcode in STORES {
        raises(5, user(immediate(opcode, 4, 6, 0)));
    }
    raises(4, user(NOP).pc(below));
    halts(0, user(NOP).pc(below).status(KERNEL | VM));
    halts(0, doubled(&[lw(6, 0, 4)]).status(USER | VM));
}

#[test]
fn item_3_the_budget_is_first() {
    for (budget, reason, steps) in [(0, BUDGET_SPENT, 0), (2, BUDGET_SPENT, 2), (3, TWO_MATCHES, 2)]
    {
        let mut bench = doubled(&[NOP, NOP, lw(6, 0, 4)]);
        assert_eq!(bench.run_records(budget, 1), Answer::done(reason, steps));
    }
    assert_eq!(doubled(&[lw(6, 0, 4)]).run_records(0, 1), Answer::done(BUDGET_SPENT, 0));
}

/// Interrupt entry is taken whatever the table holds.
#[test]
fn item_3_interrupt_entry_is_taken() {
    let fetch = || doubled(&[]).pc(DATA);
    let load = || doubled(&[lw(6, 0, 4)]);
    for start in [fetch(), load()] {
        let mut pending = with_status(IE | IM, start.clone());
        pending.machine.cause = 0x100;
        raises(0, pending);
        let mut passes = with_status(IE | 0x400, start.clone());
        passes.machine.timer = 0;
        raises(0, passes);
        let mut finishes = with_status(IE | 0x4000, start);
        finishes.machine.printers[2].status = 3;
        finishes.machine.printers[2].ticks_left = 1;
        raises(0, finishes);
    }
}

#[test]
fn item_3_what_does_not_interrupt_is_no_way_out() {
    for start in [doubled(&[]).pc(DATA), doubled(&[lw(6, 0, 4)])] {
        let mut masked = with_status(IE | 0xFE00, start.clone());
        masked.machine.cause = 0x100;
        halts(0, masked);
        let mut disabled = with_status(IM, start.clone());
        disabled.machine.cause = 0x700;
        halts(0, disabled);
        // The passage and the finish are one step away, or their lines are off.
        for (timer, ticks, bits) in [(1, 2, IE | IM), (0, 1, IE | 0xBB00), (0, 1, IM)] {
            let mut bench = with_status(bits, start.clone());
            bench.machine.timer = timer;
            bench.machine.printers[2].status = 3;
            bench.machine.printers[2].ticks_left = ticks;
            halts(0, bench);
        }
    }
}

#[test]
fn item_3_a_fetch_that_raises_is_taken() {
    // No entry, V off, no word there; each with a data page that is doubled.
    raises(2, doubled(&[]).pc(0xA000_0000));
    raises(2, doubled(&[]).entry(12, CODE, RAM | GLOBAL));
    raises(6, doubled(&[]).entry(12, CODE, 0x7000_0000 | VALID | GLOBAL));
    raises(4, doubled(&[]).pc(CODE + 2));
}

#[test]
fn item_3_words_that_make_no_access() {
    for opcode in [0x27, 0x2C, 0x2D, 0x2F, 0x30, 0x38] {
        raises(10, doubled(&[immediate(opcode, 4, 6, 0)]));
    }
    for opcode in [0x11, 0x12, 0x13, 0x31, 0x32, 0x33, 0x39, 0x3A, 0x3B] {
        raises(11, doubled(&[immediate(opcode, 4, 6, 0)]));
    }
    for opcode in [0x08, 0x09, 0x0D] {
        doubled(&[immediate(opcode, 4, 6, 0)]).run(1);
    }
}

#[test]
fn item_3_a_load_to_register_0_makes_one() {
    for opcode in LOADS {
        halts(0, doubled(&[immediate(opcode, 4, 0, 0)]));
    }
}

/// Timer, printer and Random stand where they stood, and a second run finds the
/// same.
#[test]
fn item_4_nothing_moves() {
    let mut bench = doubled(&[lw(6, 0, 4)]);
    bench.machine.timer = 0;
    bench.machine.printers[0].status = 3;
    bench.machine.printers[0].command = 2;
    bench.machine.printers[0].ticks_left = 1;
    bench.machine.printers[2] = bench.machine.printers[0];
    bench.machine.clock = u64::MAX;
    bench.machine.on_hand = 2;
    bench.machine.next_slot = 3;
    let before = bench.clone();
    for budget in [1, 7, 1_000_000] {
        for stop in [0, 1, 1 << 32] {
            assert_eq!(bench.run_records(budget, stop), Answer::done(TWO_MATCHES, 0));
            assert_eq!(bench, before);
        }
    }
    assert_eq!(bench.run_records(0, 1), Answer::done(BUDGET_SPENT, 0));
    assert_eq!(bench, before);
}

#[test]
fn item_5_the_number_of_the_reason() {
    let mut bench = doubled(&[NOP, lw(6, 0, 4)]);
    assert_eq!(bench.run_with(9, 0).packed(), 0x0000_0001_0000_0300);
}

/// Behind the entry translation is off, so that the handler's steps follow; the
/// two matches are met when it has gone back.
#[test]
fn item_5_an_exception_before_it() {
    let handler = [mfc0(26, EPC), addiu(26, 26, 4), jr(26), RFE];
    let mut start = doubled(&[SYSCALL, lw(6, 0, 4)]);
    put_words(&mut start.execution, 0x80, &handler);
    let mut asked = start.clone();
    assert_eq!(asked.run_records(50, 1), Answer::done(EXCEPTION, 1));
    assert_eq!(asked.run_records(50, 1), Answer::done(TWO_MATCHES, 4));
    assert_eq!(start.run_records(50, 0), Answer::done(TWO_MATCHES, 5));
    assert_eq!(asked, start);
}

/// The step of such a state still takes the lowest, whatever the others hold.
#[test]
fn item_6_the_step_takes_the_lowest() {
    let mut bench = translated(&[lw(6, 0, 4)])
        .entry(3, DATA, (RAM + 0x1000) | VALID | GLOBAL)
        .entry(7, DATA, 0x7000_0000 | GLOBAL);
    put_words(&mut bench.ram, 0x1040, &[0x1234]);
    assert!(!bench.step());
    assert_eq!((bench.reg(6), bench.machine.clock, bench.machine.pc), (0x1234, 1, CODE + 4));
}

/// Demand 3 across a halt: what is taken back are the steps before it.
#[test]
fn item_6_taking_back_behind_a_halt() {
    let start = doubled(&[addiu(5, 5, 1), sw(5, 0x40, 8), NOP, lw(6, 0, 4)]).register(8, DATA);
    let start = start.entry(7, DATA + 0x1000, RAM);
    let mut bench = start.entry(15, DATA + 0x1000, RAM | GOOD | GLOBAL).register(4, DATA + 0x1000);
    let start = bench.clone();
    assert_eq!(bench.run_records(50, 0), Answer::done(TWO_MATCHES, 3));
    let halted = bench.clone();
    for steps in 1..=3 {
        assert_eq!(bench.take_back(steps), Answer::done(0, steps as u32));
        let mut earlier = start.clone();
        earlier.run_records(3 - steps, 0);
        earlier.journal = bench.journal.clone();
        assert_eq!(bench, earlier);
        assert_eq!(bench.run_records(50, 0), Answer::done(TWO_MATCHES, steps as u32));
        assert_eq!(bench, halted);
    }
}

fn through(history: &mut History, bench: &mut Bench, budget: u64) -> Answer {
    let mut image = bench.image();
    let Bench { execution, bootstrap, ram, paper, journal, .. } = bench;
    let disks = no_disks();
    let answer =
        history.run(&mut image, execution, bootstrap, ram, paper, journal, disks, budget, 0);
    bench.machine = decode(&image);
    answer
}

#[test]
fn item_6_a_history_without_records_halts_too() {
    let mut bench = doubled(&[NOP, NOP, NOP, lw(6, 0, 4)]);
    let mut history = History::new(2);
    assert_eq!(through(&mut history, &mut bench, 50), Answer::done(TWO_MATCHES, 3));
    let mut image = bench.image();
    let Bench { ram, paper, journal, .. } = &mut bench;
    let answer = history.take_back(&mut image, ram, paper, journal, no_disks(), 2);
    assert_eq!(answer, Some(Answer::done(0, 2)));
    bench.machine = decode(&image);
    assert_eq!(through(&mut history, &mut bench, 2), Answer::done(BUDGET_SPENT, 2));
    assert_eq!(through(&mut history, &mut bench, 1), Answer::done(TWO_MATCHES, 0));
}

#[test]
fn item_7_tlbp_answers_the_lowest() {
    let mut bench = doubled(&[TLBP]).entry(15, DATA, GLOBAL);
    bench.machine.entry_hi = DATA;
    assert_eq!(bench.clone().run(1).machine.index, 3 << 8);
    let bench = bench.entry(3, CODE + 0x1000, 0).entry(0, DATA | 0x40, RAM | GOOD);
    assert_eq!(bench.run(1).machine.index, 7 << 8);
}
