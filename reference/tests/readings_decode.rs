//! Readings 29 to 40: decoding and CP0.

mod common;

use common::asm::*;
use common::*;

fn code_of(word: u32, status: u32) -> (u32, u32) {
    let mut bench = Bench::with(&[word]).status(status);
    bench.run_with(1, 1);
    (bench.code(), bench.ce())
}

#[test]
fn reading_29_co_is_bit_25() {
    for rs in 16..32 {
        let word = 0x4000_0010 | rs << 21 | 0x1F_FFC0;
        let bench = Bench::with(&[word]).status(0x1240_000C).run(1);
        assert_eq!(bench.machine.status.0, 0x1140_0003);
    }
}

#[test]
fn reading_30_moves_and_their_neighbours() {
    let bench = Bench::with(&[mfc0(6, STATUS) | 0x7FF]).run(1);
    assert_eq!(bench.reg(6), KERNEL);
    for rs in [1, 2, 3, 5, 6, 7, 8, 9, 10, 11, 12, 13, 14, 15] {
        for rt in [0, 1, 6, 31] {
            assert_eq!(code_of(0x4000_0000 | rs << 21 | rt << 16 | 12 << 11, KERNEL), (10, 0));
        }
    }
}

#[test]
fn reading_31_undefined_bcond() {
    for rt in 0..32 {
        let code = if [0, 1, 16, 17].contains(&rt) { 0 } else { 10 };
        assert_eq!(code_of(bcond(rt, 4, 4), KERNEL).0, code);
    }
}

#[test]
fn reading_32_blez_ignores_rt() {
    let blez = Bench::with(&[immediate(6, 0, 9, 7)]).run(1);
    assert_eq!(blez.machine.next_pc, RAM + 4 + 28);
    let bgtz = Bench::with(&[immediate(7, 9, 8, 7)]).run(1);
    assert_eq!(bgtz.machine.next_pc, RAM + 4 + 28);
}

#[test]
fn reading_33_unusable_before_reserved() {
    for low in [0x4000_7800, 0x4040_0000, 0x4200_0000, 0x4200_0003, 0x4123_4567] {
        assert_eq!(code_of(low, USER), (11, 0));
        assert_eq!(code_of(low, KERNEL).0, 10);
    }
}

#[test]
fn reading_34_other_coprocessors() {
    for number in 1..4 {
        for opcode in [0x10, 0x30, 0x38] {
            for status in [KERNEL, USER, USER | 0x1000_0000] {
                let word = immediate(opcode + number, 4, 4, 1);
                assert_eq!(code_of(word, status), (11, number));
            }
        }
    }
    for opcode in [0x30, 0x38] {
        assert_eq!(code_of(immediate(opcode, 4, 4, 1), KERNEL), (10, 0));
        assert_eq!(code_of(immediate(opcode, 4, 4, 1), USER), (10, 0));
    }
}

#[test]
fn reading_35_other_co_functions_are_reserved() {
    for function in 0..64 {
        let defined = [1, 2, 6, 8, 16].contains(&function);
        assert_eq!(code_of(0x4200_0000 | function, KERNEL).0, if defined { 0 } else { 10 });
    }
}

#[test]
fn reading_36_cp0_numbers() {
    let listed = [0, 1, 2, 8, 10, 12, 13, 14];
    for number in 0..32 {
        let code = if listed.contains(&number) { 0 } else { 10 };
        assert_eq!(code_of(mfc0(6, number), KERNEL).0, code);
        assert_eq!(code_of(mtc0(0, number), KERNEL).0, code);
    }
    let mut bench = Bench::with(&[mtc0(4, RANDOM), mtc0(4, BAD_VADDR), mtc0(4, EPC)]);
    bench.machine.registers[4] = 0xFFFF_FFFF;
    let bench = bench.run(3);
    assert_eq!((bench.machine.random, bench.machine.bad_vaddr, bench.machine.epc), (0xC00, 0, 0));
}

#[test]
fn reading_37_index_keeps_its_p() {
    for (before, written, after) in [
        (0x8000_0000, 0x0000_0500, 0x8000_0500),
        (0x0000_3F00, 0xFFFF_FFFF, 0x0000_3F00),
        (0x8000_3F00, 0x0000_0000, 0x8000_0000),
    ] {
        let mut bench = Bench::with(&[mtc0(4, INDEX)]).register(4, written);
        bench.machine.index = before;
        assert_eq!(bench.run(1).machine.index, after);
    }
}

#[test]
fn reading_38_index_modulo_sixteen() {
    let mut bench = Bench::with(&[TLBWI, mtc0(0, ENTRY_HI), mtc0(0, ENTRY_LO), TLBR]);
    bench.machine.index = 0x8000_2500;
    bench.machine.entry_hi = 0xABCD_E040;
    bench.machine.entry_lo = 0x1234_5600;
    let bench = bench.run(4);
    assert_eq!((bench.machine.tlb[5].high, bench.machine.tlb[5].low), (0xABCD_E040, 0x1234_5600));
    assert_eq!((bench.machine.entry_hi, bench.machine.entry_lo), (0xABCD_E040, 0x1234_5600));
}

#[test]
fn reading_39_probe() {
    let mut bench = Bench::with(&[TLBP]).entry(0, 0, VALID).entry(6, 0xC000_1040, GLOBAL);
    bench.machine.entry_hi = 0xC000_1080;
    assert_eq!(bench.clone().run(1).machine.index, 0x600);
    let differing_page = bench.entry(6, 0xC000_2040, GLOBAL).run(1);
    assert_eq!(differing_page.machine.index, 0x8000_0000);
}

#[test]
fn reading_40_who_may_use_cp0() {
    assert_eq!(code_of(mtc0(0, STATUS), 0), (0, 0));
    assert_eq!(code_of(mtc0(0, STATUS), USER | 0x1000_0000), (0, 0));
    assert_eq!(code_of(RFE, USER | 0x1000_0000), (0, 0));
    assert_eq!(code_of(RFE, USER), (11, 0));
}

#[test]
fn masks_of_written_registers() {
    let words = [mtc0(4, ENTRY_HI), mtc0(4, ENTRY_LO), mtc0(4, STATUS)];
    let bench = Bench::with(&words).register(4, 0xFFFF_FFFC).run(3);
    assert_eq!((bench.machine.entry_hi, bench.machine.entry_lo), (0xFFFF_FFC0, 0xFFFF_FF00));
    assert_eq!(bench.machine.status.0, 0x1740_FF3C);
}

#[test]
fn undefined_opcodes_and_functions() {
    let functions = [
        0, 2, 3, 4, 6, 7, 8, 9, 12, 13, 16, 17, 18, 19, 24, 25, 26, 27, 32, 33, 34, 35, 36, 37, 38,
        39, 42, 43,
    ];
    for function in 0..64 {
        let code = match function {
            12 => 8,
            13 => 9,
            _ if functions.contains(&function) => 0,
            _ => 10,
        };
        assert_eq!(code_of(special(function, 0, 0, 0), KERNEL).0, code);
    }
    for opcode in (0x14..0x20).chain([0x27, 0x2C, 0x2D, 0x2F]).chain(0x34..0x38).chain(0x3C..0x40) {
        assert_eq!(code_of(immediate(opcode, 9, 4, 0), KERNEL).0, 10);
    }
}
