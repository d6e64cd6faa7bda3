//! Readings 41 to 52: addresses.

mod common;

use common::asm::*;
use common::*;

const PAGE: u32 = 0x8000_0000;
const LOADS: [u32; 7] = [0x20, 0x21, 0x22, 0x23, 0x24, 0x25, 0x26];
const STORES: [u32; 5] = [0x28, 0x29, 0x2A, 0x2B, 0x2E];

/// One access at this address. Cause starts with code 12, which no access
/// raises, so that it also tells where there was no exception.
fn access(opcode: u32, address: u32, bench: Bench) -> Bench {
    let mut bench = bench.register(4, address);
    put_words(&mut bench.ram, 0, &[immediate(opcode, 4, 6, 0)]);
    bench.machine.cause |= 12 << 2;
    bench.run_with(1, 0);
    bench
}

/// Its code sits in RAM and is mapped at 0x80000000 too.
fn mapped() -> Bench {
    Bench::new().entry(15, PAGE, RAM | VALID | GLOBAL).pc(PAGE)
}

const NONE: u32 = 12;

#[test]
fn reading_41_user_mode_is_ku_one() {
    assert_eq!(access(0x23, BUS, Bench::new().status(USER)).code(), 4);
    assert_eq!(access(0x23, BUS, Bench::new().status(0)).code(), NONE);
}

#[test]
fn reading_42_privilege_and_translation() {
    let user_vm = || mapped().entry(0, 0x7FFF_F000, RAM | VALID | GLOBAL).status(USER | VM);
    assert_eq!(access(0x23, 0x7FFF_F000, user_vm()).code(), 4);
    assert_eq!(access(0x2B, 0x1FFF_F000, user_vm()).code(), 5);
    assert_eq!(access(0x23, 0xFFFF_F000, user_vm()).code(), 2);
    assert_eq!(access(0x23, RAM + 0x100, Bench::new().status(USER)).code(), NONE);
    assert_eq!(access(0x23, BUS, mapped().status(VM)).code(), NONE);
    assert_eq!(access(0x23, RAM, mapped().status(VM)).code(), 2);
}

#[test]
fn reading_43_unaligned_and_privileged() {
    let bench = access(0x23, 0x1000_0001, Bench::new().status(USER));
    assert_eq!((bench.code(), bench.machine.bad_vaddr), (4, 0x1000_0001));
}

#[test]
fn reading_44_unaligned_parts() {
    let last = RAM + 0x1FFF;
    for opcode in [0x22, 0x26, 0x2A, 0x2E] {
        assert_eq!(access(opcode, last, Bench::new()).code(), NONE);
        let bench = access(opcode, 0x1000_0003, Bench::new().status(USER));
        assert_eq!(bench.machine.bad_vaddr, 0x1000_0003);
    }
    let load = |opcode, place| {
        let mut bench = Bench::new().register(6, 0xAABB_CCDD);
        put_words(&mut bench.ram, 0x100, &[0x4433_2211]);
        access(opcode, RAM + 0x100 + place, bench).reg(6)
    };
    assert_eq!(
        [0, 1, 2, 3].map(|place| load(0x22, place)),
        [0x11BB_CCDD, 0x2211_CCDD, 0x3322_11DD, 0x4433_2211]
    );
    assert_eq!(
        [0, 1, 2, 3].map(|place| load(0x26, place)),
        [0x4433_2211, 0xAA44_3322, 0xAABB_4433, 0xAABB_CC44]
    );
    let store = |opcode, place| {
        let mut bench = Bench::new().register(6, 0xAABB_CCDD);
        put_words(&mut bench.ram, 0x100, &[0x4433_2211]);
        access(opcode, RAM + 0x100 + place, bench).ram_word(0x100)
    };
    assert_eq!(
        [0, 1, 2, 3].map(|place| store(0x2A, place)),
        [0x4433_22AA, 0x4433_AABB, 0x44AA_BBCC, 0xAABB_CCDD]
    );
    assert_eq!(
        [0, 1, 2, 3].map(|place| store(0x2E, place)),
        [0xAABB_CCDD, 0xBBCC_DD11, 0xCCDD_2211, 0xDD33_2211]
    );
}

#[test]
fn reading_45_entry_hi_keeps_its_asid() {
    let faults = [
        (0x23, 0x9000_0004, 2, 0x0),
        (0x2B, 0x9000_0004, 3, 0x0),
        (0x23, 0x9000_1004, 2, 0x80),
        (0x2B, 0x9000_2004, 1, 0x80),
    ];
    for (opcode, address, code, vector) in faults {
        let mut bench = mapped()
            .entry(1, 0x9000_1000, RAM | DIRTY | GLOBAL)
            .entry(2, 0x9000_2000, RAM | VALID | GLOBAL)
            .status(VM);
        bench.machine.entry_hi = 0x1234_5A40;
        let bench = access(opcode, address, bench);
        assert_eq!((bench.code(), bench.machine.pc), (code, vector));
        assert_eq!(bench.machine.entry_hi, address & 0xFFFF_F000 | 0xA40);
        assert_eq!(bench.machine.bad_vaddr, address);
    }
    let mut bench = Bench::new();
    bench.machine.entry_hi = 0x1234_5A40;
    assert_eq!(access(0x23, RAM + 2, bench).machine.entry_hi, 0x1234_5A40);
}

#[test]
fn miss_vector_in_the_bootstrap_rom() {
    let bench = access(0x23, 0x9000_0000, mapped().status(VM | 0x40_0000));
    assert_eq!((bench.machine.pc, bench.machine.next_pc), (0x1FC0_0100, 0x1FC0_0104));
}

#[test]
fn reading_46_bus_errors_keep_bad_vaddr() {
    let mut bench = Bench::new();
    bench.machine.bad_vaddr = 77;
    let data = access(0x23, 0x7000_0000, bench.clone());
    assert_eq!((data.code(), data.machine.bad_vaddr), (7, 77));
    let fetch = bench.pc(0x7000_0000).trap(1);
    assert_eq!((fetch.code(), fetch.machine.bad_vaddr), (6, 77));
}

#[test]
fn reading_47_order_of_table_and_bus() {
    let store = |low| access(0x2B, 0x9000_0000, mapped().entry(1, 0x9000_0000, low).status(VM));
    assert_eq!(store(RAM | GLOBAL).code(), 3);
    assert_eq!(store(BOOT | VALID | GLOBAL).code(), 1);
    assert_eq!(store(BOOT | VALID | DIRTY | GLOBAL).code(), 7);
}

#[test]
fn reading_48_device_area_is_for_lw_and_sw() {
    for opcode in LOADS.into_iter().chain(STORES) {
        let whole_word = opcode == 0x23 || opcode == 0x2B;
        let code = if whole_word { NONE } else { 7 };
        assert_eq!(access(opcode, BUS, Bench::new()).code(), code);
        assert_eq!(access(opcode, BUS + 0x2CC, Bench::new()).code(), code);
        assert_eq!(access(opcode, BUS + 0x2D0, Bench::new()).code(), 7);
        let through = mapped().entry(1, 0x9000_0000, BUS | VALID | DIRTY | GLOBAL).status(VM);
        assert_eq!(access(opcode, 0x9000_0000, through).code(), code);
    }
    assert_eq!(access(0x21, BUS + 1, Bench::new()).code(), 4);
    assert_eq!(Bench::new().pc(BUS).trap(1).code(), 6);
}

#[test]
fn reading_49_where_nothing_is_installed() {
    for address in [0x200, 0x0FFF_FFFC, BUS + 0x2D0, 0x1FBF_FFFC, BOOT + 0x200, 0x1FFF_FFFC] {
        assert_eq!(access(0x23, address, Bench::new()).code(), 7);
        assert_eq!(Bench::new().pc(address).trap(1).code(), 6);
    }
    for address in [RAM + 0x2000, 0x7FFF_FFFC, 0x8000_0000, 0xFFFF_FFFC] {
        assert_eq!(access(0x23, address, Bench::new()).code(), 7);
    }
    for address in [0x1FC, BOOT + 0x1FC, RAM + 0x1FFC] {
        assert_eq!(access(0x23, address, Bench::new()).code(), NONE);
    }
    for line in [3, 4, 5, 6, 7] {
        let device = BUS + 0x50 + (line - 3) * 0x80 + 0x10;
        assert_eq!(access(0x23, device, Bench::new().register(6, 9)).reg(6), 0);
        assert_eq!(access(0x2B, device + 4, Bench::new().register(6, 2)).code(), NONE);
    }
}

#[test]
fn reading_50_store_of_an_equal_value_to_rom() {
    for opcode in STORES {
        assert_eq!(access(opcode, BOOT, Bench::new()).code(), 7);
        assert_eq!(access(opcode, 0, Bench::new()).code(), 7);
    }
}

#[test]
fn reading_51_sizes_are_in_bytes() {
    let word = |offset| access(0x23, BUS + offset, Bench::new()).reg(6);
    let words = [0x00, 0x04, 0x08, 0x0C, 0x10, 0x14].map(word);
    assert_eq!(words, [RAM, 0x2000, 0, 0x200, BOOT, 0x200]);
}

#[test]
fn reading_52_g_ignores_the_asid_only() {
    let load = |high, low| {
        let mut bench = mapped().entry(1, high, low).status(VM);
        bench.machine.entry_hi = 0x40;
        access(0x23, 0x9000_0000, bench).code()
    };
    assert_eq!(load(0x9000_0040, RAM | VALID), NONE);
    assert_eq!(load(0x9000_0080, RAM | VALID), 2);
    assert_eq!(load(0x9000_0080, RAM | VALID | GLOBAL), NONE);
    assert_eq!(load(0x9000_1040, RAM | VALID | GLOBAL), 2);
}
