//! Request L2: what a step in a slot is, and what its exceptions leave.

mod common;

use common::asm::*;
use common::dice::Dice;
use common::states::random_bench;
use common::*;
use reference::{Answer, Machine, TWO_MATCHES};

const HERE: u32 = RAM + 0x40;

/// One of each branch and jump, all with somewhere to go, at `HERE`.
/// Register 4 is negative, 5 positive, 6 an address.
fn branches() -> Vec<(&'static str, u32)> {
    vec![
        ("J", j(RAM + 0x80)),
        ("JAL", jal(RAM + 0x80)),
        ("JR", jr(6)),
        ("JALR", jalr(7, 6)),
        ("BEQ taken", beq(0, 0, 8)),
        ("BEQ not taken", beq(4, 5, 8)),
        ("BNE taken", bne(4, 5, 8)),
        ("BNE not taken", bne(0, 0, 8)),
        ("BLEZ taken", immediate(6, 4, 0, 8)),
        ("BLEZ not taken", immediate(6, 5, 0, 8)),
        ("BGTZ taken", immediate(7, 5, 0, 8)),
        ("BGTZ not taken", immediate(7, 4, 0, 8)),
        ("BLTZ taken", bcond(0, 4, 8)),
        ("BLTZ not taken", bcond(0, 5, 8)),
        ("BGEZ taken", bcond(1, 5, 8)),
        ("BGEZ not taken", bcond(1, 4, 8)),
        ("BLTZAL taken", bcond(16, 4, 8)),
        ("BLTZAL not taken", bcond(16, 5, 8)),
        ("BGEZAL taken", bcond(17, 5, 8)),
        ("BGEZAL not taken", bcond(17, 4, 8)),
    ]
}

fn at_here(words: &[u32]) -> Bench {
    let mut bench = Bench::new().pc(HERE);
    put_words(&mut bench.ram, 0x40, words);
    bench.register(4, u32::MAX).register(5, 1).register(6, RAM + 0x80)
}

fn slot(machine: &Machine) -> (u32, u32) {
    (machine.slot_flag, machine.branch_address)
}

fn bd(machine: &Machine) -> u32 {
    machine.cause >> 31
}

#[test]
fn every_branch_and_jump_has_a_slot() {
    for (name, word) in branches() {
        let bench = at_here(&[word, NOP]).run(1);
        assert_eq!(slot(&bench.machine), (1, HERE), "{name}");
        assert_eq!(slot(&bench.run(1).machine), (0, 0), "{name}");
    }
    println!("{} branches and jumps", branches().len());
}

#[test]
fn nothing_else_has_one() {
    let words = [
        NOP,
        addiu(7, 0, 1),
        special(24, 4, 5, 0),
        lw(7, 0, 6),
        sw(5, 0, 6),
        mtc0(0, CAUSE),
        mfc0(7, EPC),
        TLBP,
        TLBWR,
        RFE,
    ];
    for word in words {
        let mut bench = at_here(&[word]);
        bench.machine.slot_flag = 1;
        bench.machine.branch_address = RAM + 4;
        assert_eq!(slot(&bench.run(1).machine), (0, 0), "{word:08X}");
    }
}

#[test]
fn a_branch_in_a_slot_has_its_own() {
    for (name, word) in branches() {
        let bench = at_here(&[beq(0, 0, 16), word]).run(2);
        assert_eq!(slot(&bench.machine), (1, HERE + 4), "{name}");
        assert_eq!(bench.machine.pc, HERE + 4 + 64, "{name}");
        let mut bench = bench;
        put_words(&mut bench.ram, 0x40 + 4 + 64, &[SYSCALL]);
        let bench = bench.trap(1);
        assert_eq!((bench.machine.epc, bd(&bench.machine)), (HERE + 4, 1), "{name}");
    }
}

/// What a slot may hold or meet, with the code that it raises.
fn raising() -> Vec<(u32, Bench)> {
    let in_slot = |word| at_here(&[beq(0, 0, 16), word]).run(1);
    let mapped = |word, low: u32| {
        let bench = in_slot(word).status(KERNEL | VM);
        bench.entry(0, RAM, RAM | VALID | GLOBAL).entry(1, 0x5000_0000, low | GLOBAL)
    };
    let page = |word, low| mapped(word, low).register(8, 0x5000_0000);
    let with = |change: fn(&mut Machine)| {
        let mut bench = in_slot(NOP);
        change(&mut bench.machine);
        bench
    };
    vec![
        (0, with(|machine| machine.timer = 0).status(KERNEL | 0x401)),
        (0, with(|machine| machine.cause = 0x100).status(KERNEL | 0x101)),
        (1, page(sw(4, 0, 8), RAM | VALID)),
        (2, page(lw(4, 0, 8), RAM)),
        (2, page(lw(4, 0x1000, 8), RAM)),
        (3, page(sw(4, 0, 8), RAM)),
        (3, page(sw(4, 0x1000, 8), RAM)),
        (4, in_slot(lw(4, 1, 9))),
        (5, in_slot(sw(4, 2, 9))),
        (7, in_slot(lw(4, 0x4000, 9))),
        (7, in_slot(sw(4, 0x4000, 9))),
        (8, in_slot(SYSCALL)),
        (9, in_slot(BREAK)),
        (10, in_slot(0xFC00_0000)),
        (11, in_slot(0x4400_0000)),
        (11, in_slot(RFE).status(USER)),
        (12, in_slot(addi(7, 5, 0x7FFF)).register(5, 0x7FFF_FFFF)),
        // The fetch of the slot itself: AdEL, TLBL not valid and as a miss, IBE.
        (4, with(|machine| machine.pc = RAM + 2)),
        (2, in_slot(NOP).status(KERNEL | VM).entry(0, RAM, RAM | GLOBAL)),
        (2, in_slot(NOP).status(KERNEL | VM)),
        (6, with(|machine| machine.pc = RAM + 0x8000)),
    ]
}

#[test]
fn every_exception_in_a_slot_goes_back_to_the_branch() {
    let mut met = [0; 13];
    for (code, bench) in raising() {
        assert_eq!(slot(&bench.machine), (1, HERE));
        let (outside, pc) = (bench.clone(), bench.machine.pc);
        let machine = bench.trap(1).machine;
        assert_eq!(machine.cause >> 2 & 31, code);
        assert_eq!((machine.epc, bd(&machine), slot(&machine)), (HERE, 1, (0, 0)), "code {code}");
        met[code as usize] += 1;
        // The same without the flag: as document 01 says.
        let mut outside = outside;
        (outside.machine.slot_flag, outside.machine.branch_address) = (0, 0);
        outside.machine.cause |= 1 << 31;
        let machine = outside.trap(1).machine;
        assert_eq!((machine.epc, bd(&machine), slot(&machine)), (pc, 0, (0, 0)), "code {code}");
    }
    println!("slots under each code {met:?}");
    assert!(met.iter().all(|&count| count > 0));
}

#[test]
fn a_bad_target_is_no_slot() {
    let bench = at_here(&[jr(6), NOP]).register(6, RAM + 0x82).trap(3);
    assert_eq!((bench.machine.epc, bd(&bench.machine)), (RAM + 0x82, 0));
}

#[test]
fn bad_vaddr_is_still_the_faulting_address() {
    let bench = at_here(&[beq(0, 0, 16), lw(4, 1, 9)]).trap(2);
    assert_eq!((bench.machine.bad_vaddr, bench.machine.epc), (RAM + 1, HERE));
}

#[test]
fn a_stop_before_a_slot_leaves_the_flag() {
    let bench = at_here(&[beq(0, 0, 16), NOP]).run(1).status(KERNEL | VM);
    let both = RAM | VALID | GLOBAL;
    let mut bench = bench.entry(0, RAM, both).entry(3, RAM, both);
    assert_eq!(bench.run_with(5, 0), Answer::done(TWO_MATCHES, 0));
    assert_eq!(slot(&bench.machine), (1, HERE));
}

/// Whether the word is a branch or a jump, by the published tables.
fn is_branch(word: u32) -> bool {
    match word >> 26 {
        0 => matches!(word & 63, 8 | 9),
        1 => matches!(word >> 16 & 31, 0 | 1 | 16 | 17),
        opcode => (2..=7).contains(&opcode),
    }
}

/// The word at PC of a machine without translation and with its code in RAM.
fn word_at_pc(bench: &Bench) -> Option<u32> {
    let place = bench.machine.pc.checked_sub(RAM)? as usize;
    let translated = bench.machine.status.0 & VM != 0;
    (!translated && place + 4 <= bench.ram.len()).then(|| bench.ram_word(place))
}

#[test]
fn random_steps_keep_flag_epc_and_bd() {
    let mut dice = Dice::new(61);
    let (mut slots, mut entries, mut branches, mut in_slots) = (0, 0, 0, 0);
    for _ in 0..4_000 {
        let mut bench = random_bench(&mut dice);
        for _ in 0..30 {
            let (before, word) = (bench.machine.clone(), word_at_pc(&bench));
            let entered = bench.step();
            let (after, in_slot) = (&bench.machine, before.slot_flag == 1);
            slots += u32::from(in_slot);
            if entered {
                let back = if in_slot { before.branch_address } else { before.pc };
                assert_eq!((after.epc, bd(after)), (back, before.slot_flag));
                assert_eq!(slot(after), (0, 0));
                entries += u32::from(in_slot);
            } else if let Some(word) = word {
                let branch = is_branch(word);
                assert_eq!(slot(after), if branch { (1, before.pc) } else { (0, 0) });
                branches += u32::from(branch);
                in_slots += u32::from(branch && in_slot);
            }
        }
    }
    println!("{slots} slots, {entries} entered, {branches} branches, {in_slots} of them in slots");
    assert!(slots >= 2_000 && entries >= 300 && branches >= 2_000 && in_slots >= 200);
}
