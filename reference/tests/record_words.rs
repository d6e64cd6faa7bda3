//! The words of the record, for a step of each kind.

mod common;

use common::asm::*;
use common::*;
use reference::{Answer, Entry, Printer};

/// A machine in which no two words of a record are alike by chance. PC is at
/// RAM's start and in a slot, printers 0 and 2 are installed, 2 is pending.
fn marked(instruction: u32) -> Bench {
    let mut bench = Bench::with(&[instruction]).register(4, 0x4444_0001).register(31, 0x3131_3131);
    let machine = &mut bench.machine;
    machine.hi = 0x0101_0001;
    machine.lo = 0x0202_0002;
    machine.index = 0x8000_0500;
    machine.random = 0x0700;
    machine.entry_hi = 0xABCD_E040;
    machine.entry_lo = 0x1234_5600;
    machine.bad_vaddr = 0x8888_0008;
    machine.cause = 0x1000_4124;
    machine.epc = 0xEEEE_000B;
    machine.slot_flag = 1;
    machine.branch_address = 0xBBBB_000D;
    machine.timer = 0x7777_000C;
    machine.pending = 4;
    machine.clock = 0x0000_0001_FFFF_FFFF;
    for number in 0..16 {
        machine.tlb[number].high = 0xF000_0040 + ((number as u32) << 12);
        machine.tlb[number].low = 0xE000_0200 + ((number as u32) << 12);
    }
    machine.printers[0] =
        Printer { status: 3, command: 2, data0: 0x5A5A_0041, ticks_left: 3, paper_count: 1 };
    machine.printers[2] =
        Printer { status: 4, command: 9, data0: 0x6B6B_0042, ticks_left: 0, paper_count: 4 };
    put_words(&mut bench.ram, 0x100, &[0x4433_2211]);
    bench.paper = (0x80..0xA0).collect();
    bench
}

/// What the record of a step of `marked` holds where nothing else is told.
fn marked_words() -> [u32; 128] {
    let mut words = [0; 128];
    words[..16].copy_from_slice(&[
        0x0101_0001,
        0x0202_0002,
        0x2000_0000,
        0x2000_0004,
        0x8000_0500,
        0x0000_0700,
        0xABCD_E040,
        0x1234_5600,
        0x8888_0008,
        0x1000_0000,
        0x1000_4124,
        0xEEEE_000B,
        0x0000_0001,
        0xBBBB_000D,
        0x7777_000C,
        0x0000_0004,
    ]);
    words[19..24].copy_from_slice(&[3, 2, 0x5A5A_0041, 3, 1]);
    words[29..34].copy_from_slice(&[4, 9, 0x6B6B_0042, 0, 4]);
    words
}

/// Takes the step, compares all 128 words with the marked ones and these
/// others, and takes it back.
fn holds(mut bench: Bench, reason: u8, others: &[(usize, u32)]) {
    let before = bench.clone();
    bench.journal.fill(0xC5);
    assert_eq!(bench.run_records(1, 1), Answer::done(reason, 1));
    let mut expected = marked_words();
    for &(number, value) in others {
        expected[number] = value;
    }
    let mut bytes = vec![0; 512];
    put_words(&mut bytes, 0, &expected);
    bytes.resize(4 * 512, 0xC5);
    for (number, word) in bench.journal.chunks_exact(4).enumerate() {
        assert_eq!(word, &bytes[number * 4..][..4], "word {number}");
    }
    assert_eq!(bench.take_back(1), Answer::done(0, 1));
    bench.journal = before.journal.clone();
    assert_eq!(bench, before);
}

const RUNS: u8 = 1;
const ENTERS: u8 = 2;

#[test]
fn nothing_else() {
    // MULT, TLBR, TLBP, RFE, MTC0, a branch, and a timer write.
    let words =
        [special(24, 4, 4, 0), TLBR, TLBP, RFE, mtc0(4, STATUS), beq(0, 0, 5), sw(4, TIMER, 8)];
    for word in words {
        holds(marked(word), RUNS, &[]);
    }
}

#[test]
fn a_register() {
    let links = [bcond(16, 0, 4), bcond(17, 0, 4), jal(RAM + 0x40), jalr(31, 9)];
    for word in links {
        holds(marked(word), RUNS, &[(59, 1), (60, 31), (61, 0x3131_3131)]);
    }
    // The last writes the value that is there: overwritten all the same.
    let writes =
        [addiu(4, 0, 5), mfc0(4, CAUSE), lw(4, 0x100, 9), special(16, 0, 0, 4), addiu(4, 4, 0)];
    for word in writes {
        holds(marked(word), RUNS, &[(59, 1), (60, 4), (61, 0x4444_0001)]);
    }
    // Register 0 is never overwritten.
    for word in [NOP, addiu(0, 4, 5), lw(0, 0x100, 9), mfc0(0, CAUSE), jalr(0, 9)] {
        holds(marked(word), RUNS, &[]);
    }
}

#[test]
fn a_device_load() {
    for offset in [TIMER, printer(0), printer(2) + 8, 0x1C] {
        holds(marked(lw(4, offset, 8)), RUNS, &[(59, 1), (60, 4), (61, 0x4444_0001)]);
    }
}

#[test]
fn a_row_of_the_table() {
    holds(marked(TLBWI), RUNS, &[(59, 2), (60, 5), (61, 0xF000_5040), (62, 0xE000_5200)]);
    // Random has moved on when the row is chosen; the record has it before.
    holds(marked(TLBWR), RUNS, &[(59, 2), (60, 6), (61, 0xF000_6040), (62, 0xE000_6200)]);
    let mut first = marked(TLBWI);
    first.machine.index = 0;
    first.machine.tlb[0] = Entry::default();
    holds(first, RUNS, &[(4, 0), (59, 2)]);
}

#[test]
fn a_word_of_ram() {
    let whole = [(59, 3), (60, 0x100), (61, 0x4433_2211)];
    holds(marked(sw(4, 0x100, 9)), RUNS, &whole);
    holds(marked(sw(4, 0x100, 9)).register(4, 0x4433_2211), RUNS, &whole);
    for (opcode, step) in [(0x28, 1), (0x29, 2), (0x2A, 1), (0x2E, 1)] {
        for place in (0x100..0x104).step_by(step) {
            holds(marked(immediate(opcode, 9, 4, place)), RUNS, &whole);
        }
    }
    holds(marked(immediate(0x28, 9, 4, 0x1FFF)), RUNS, &[(59, 3), (60, 0x1FFC)]);
    // The first word of RAM is the instruction itself.
    let own = sw(4, 0, 9);
    holds(marked(own), RUNS, &[(59, 3), (61, own)]);
}

#[test]
fn a_printer_command_is_in_the_printers_words() {
    holds(marked(sw(4, printer(2) + 4, 8)), RUNS, &[]);
    holds(marked(sw(4, printer(2) + 8, 8)), RUNS, &[]);
}

#[test]
fn an_exception() {
    let words = [SYSCALL, lw(4, 1, 9), sw(4, 1, 9), lw(4, 0x4000, 9), sw(4, 0x4000, 9)];
    for word in words {
        holds(marked(word), ENTERS, &[]);
    }
    let overflow = marked(special(32, 4, 4, 4)).register(4, 0x7FFF_FFFF);
    holds(overflow, ENTERS, &[]);
}

#[test]
fn an_interrupt() {
    let enabled = marked(addiu(4, 0, 5)).status(KERNEL | 0x4001);
    holds(enabled, ENTERS, &[(9, KERNEL | 0x4001)]);
    // IP[2] goes on in the same step; the record has Cause and timer before.
    let mut passage = marked(sw(4, 0x100, 9)).status(KERNEL | 0x0401);
    passage.machine.timer = 0;
    holds(passage, ENTERS, &[(9, KERNEL | 0x0401), (14, 0)]);
}

#[test]
fn paper() {
    let mut bench = marked(sw(4, 0x100, 9));
    bench.machine.printers[0].ticks_left = 1;
    let byte = [(16, 1), (17, 0x81), (22, 1)];
    let word = [(59, 3), (60, 0x100), (61, 0x4433_2211)];
    holds(bench.clone(), RUNS, &[&byte[..], &word].concat());
    let masked = (9, KERNEL | 0x4001);
    holds(bench.clone().status(masked.1), ENTERS, &[&byte[..], &[masked]].concat());
    // A full eighth, a RESET: no byte is overwritten.
    bench.machine.printers[0].paper_count = 4;
    holds(bench.clone(), RUNS, &[&[(22, 1), (23, 4)], &word[..]].concat());
    bench.machine.printers[0] = Printer { command: 0, paper_count: 1, ..bench.machine.printers[0] };
    holds(bench, RUNS, &[&[(20, 0), (22, 1)], &word[..]].concat());
}

#[test]
fn all_eight_printers_at_once() {
    let mut bench = marked(TLBWI);
    bench.machine.installed = 255;
    bench.machine.pending = 0;
    bench.machine.cause = 0;
    let mut others = vec![(10, 0), (15, 0), (16, 255), (17, 0x8D_8A_85_80), (18, 0x9E_99_96_91)];
    for (number, printer) in bench.machine.printers.iter_mut().enumerate() {
        let data0 = 0x100 + number as u32;
        let paper_count = [0, 1, 2, 1, 1, 2, 1, 2][number];
        *printer = Printer { status: 3, command: 2, data0, ticks_left: 1, paper_count };
        let words = [3, 2, data0, 1, paper_count];
        others
            .extend(words.iter().enumerate().map(|(word, &value)| (19 + 5 * number + word, value)));
    }
    others.extend([(59, 2), (60, 5), (61, 0xF000_5040), (62, 0xE000_5200)]);
    holds(bench, RUNS, &others);
}
