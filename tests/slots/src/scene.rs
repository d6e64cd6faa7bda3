//! A machine whose code has branches and jumps everywhere, with something that
//! raises each exception close to them, also in their slots.

use crate::asm::*;
use crate::call::Call;
use crate::dice::Dice;
use crate::lent::empty_index;
use crate::lines;
use crate::look::{DIRTY, GLOBAL, RAM, VALID};
use crate::pool::Pool;
use crate::words::*;
use reference::layout::RECORD_BYTES;
use reference::{encode, Entry, Machine, Status, IMAGE_BYTES};

/// Numbers for yes; the low half or the low byte of some is 0.
pub const STOPS: [u64; 7] = [1, 2, 256, 1 << 31, 1 << 32, 1 << 63, u64::MAX];

const USER: u32 = 1 << 1;
const BEV: u32 = 1 << 22;
const VM: u32 = 1 << 24;
const CU0: u32 = 1 << 28;

const FRAME: u32 = 0x1000;
const ROM_BYTES: usize = 0x220;

/// Where the code is; each at the start of a region of J.
const HOMES: [u32; 3] = [RAM, 0x8000_0000, 0xC000_0000];
/// Pages of data, far from the code's.
const DATA: u32 = 0x9000_0000;

/// Back to where EPC leads; behind it; behind the slot too, where BD is on.
const BACK: [u32; 3] = [mfc0(26, EPC), jr(26), RFE];
const BEHIND: [u32; 4] = [mfc0(26, EPC), addiu(26, 26, 4), jr(26), RFE];
const BEHIND_SLOT: [u32; 8] = [
    mfc0(27, CAUSE),
    mfc0(26, EPC),
    bcond(1, 27, 2),
    NOP,
    addiu(26, 26, 4),
    addiu(26, 26, 4),
    jr(26),
    RFE,
];
/// Turns the software lines off, and goes back.
const QUIET: [u32; 4] = [mtc0(0, CAUSE), mfc0(26, EPC), jr(26), RFE];

fn put(bytes: &mut [u8], place: usize, words: &[u32]) {
    for (four, word) in bytes[place..].chunks_exact_mut(4).zip(words) {
        four.copy_from_slice(&word.to_le_bytes());
    }
}

fn handler(dice: &mut Dice) -> &'static [u32] {
    match dice.below(8) {
        0 => &BACK,
        1 | 2 => &BEHIND,
        3 => &QUIET,
        _ => &BEHIND_SLOT,
    }
}

fn rom(dice: &mut Dice, pool: &Pool, base: usize) -> Vec<u8> {
    let mut rom = pool.code(dice, ROM_BYTES);
    for vector in [base, base + 0x80] {
        let words = handler(dice);
        put(&mut rom, vector, words);
    }
    rom
}

fn buffers(dice: &mut Dice, pool: &Pool) -> Call {
    let frames = if dice.chance(4) { 2 } else { 1 };
    let paper = dice.pick(&[0, 8, 16, 64]);
    let slots = dice.pick(&[0, 1, 2, 3, 3, 17]);
    Call {
        image: vec![0; IMAGE_BYTES],
        execution: rom(dice, pool, 0),
        bootstrap: rom(dice, pool, 0x100),
        ram: pool.code(dice, 0x1000 * frames),
        paper: pool.bytes(dice, paper),
        journal: pool.bytes(dice, RECORD_BYTES * slots),
        index: empty_index(0x1000 * frames),
        budget: budget(dice),
        stop: if dice.chance(3) { dice.pick(&STOPS) } else { 0 },
    }
}

fn budget(dice: &mut Dice) -> u64 {
    u64::from(match dice.below(16) {
        0 => 0,
        1..=3 => 1,
        4..=6 => 2,
        7..=11 => dice.between(3, 12),
        _ => dice.between(13, 40),
    })
}

fn status(dice: &mut Dice, translated: bool, user: bool) -> Status {
    let vm = if translated { VM } else { 0 };
    let user = if user { USER } else { 0 };
    let cu0 = if dice.chance(3) { CU0 } else { 0 };
    let stacks = dice.word() & 0x0600_003C;
    Status(vm | user | cu0 | dice.below(2) * BEV | stacks | lines::enabled(dice))
}

/// One entry for the code, one for the page behind it, and one for each page of
/// data; two for the doubled one.
fn table(dice: &mut Dice, machine: &mut Machine, home: u32) {
    let all = VALID | DIRTY | GLOBAL;
    for (number, entry) in (0..).zip(&mut machine.tlb) {
        *entry = Entry { high: 0xE000_0000 + FRAME * number, low: RAM | all };
    }
    machine.tlb[0] = Entry { high: home, low: RAM | all };
    let behind = home + FRAME;
    let low = match dice.below(6) {
        0 => RAM | GLOBAL,
        1 => 0x7000_0000 | all,
        2 => 0x1000_0000 | all,
        _ => RAM | all,
    };
    if !dice.chance(4) {
        machine.tlb[1] = Entry { high: behind, low };
    }
    if dice.chance(2) {
        machine.tlb[2] = Entry { high: behind, low: RAM | all };
    }
    machine.tlb[3] = Entry { high: DATA, low: RAM | all };
    machine.tlb[4] = Entry { high: DATA + FRAME, low: RAM | VALID | GLOBAL };
    machine.tlb[5] = Entry { high: DATA + 2 * FRAME, low: RAM | GLOBAL };
    machine.tlb[6] = Entry { high: DATA + 4 * FRAME, low: 0x7000_0000 | all };
    machine.tlb[7] = Entry { high: DATA + 5 * FRAME, low: RAM | all };
    if dice.chance(2) {
        machine.tlb[8] = Entry { high: DATA + 5 * FRAME, low: RAM | all };
    }
}

/// Somewhere in the first frame, its end more often than by chance.
fn code_place(dice: &mut Dice) -> u32 {
    if dice.chance(4) {
        FRAME - 4 * dice.between(1, 4)
    } else {
        4 * dice.below(0x400)
    }
}

fn registers(dice: &mut Dice, machine: &mut Machine, home: u32, translated: bool) {
    for register in &mut machine.registers[17..] {
        *register = dice.pick(&[0, 1, 2, 0x41, u32::MAX, 0x1234_5678]);
    }
    let place = 0x800 + 4 * dice.below(0x100);
    for (base, page) in [(GOOD, 0), (READ_ONLY, 1), (NOT_VALID, 2), (MISSING, 3), (NOWHERE, 4)] {
        let start = if translated { DATA + FRAME * page } else { RAM };
        machine.registers[base as usize] = start + place;
    }
    if !translated {
        machine.registers[NOWHERE as usize] = 0x7000_0000;
    }
    machine.registers[DOUBLED as usize] = if translated { DATA + 5 * FRAME } else { RAM } + place;
    machine.registers[DEVICES as usize] = 0x1000_0000;
    for (number, base) in CODE.into_iter().enumerate() {
        let odd = if number == 2 { dice.between(1, 3) } else { 0 };
        machine.registers[base as usize] = home + code_place(dice) + odd;
    }
    let bad = [home + FRAME, 0x7000_0000, 0x1000_0000, 0, DATA + 3 * FRAME, DATA + 5 * FRAME];
    for base in BAD_CODE {
        machine.registers[base as usize] = dice.pick(&bad) + 4 * dice.below(4);
    }
    machine.registers[MOST_POSITIVE as usize] = 0x7FFF_FFFF;
    machine.registers[NEGATIVE as usize] = 0x8000_0000 | dice.below(2);
    machine.registers[LINES as usize] = dice.pick(&[0x100, 0x200, 0x300]);
    machine.registers[STATUS_VALUE as usize] = machine.status.0 & !USER | dice.below(2);
}

/// Flag and address at the start: the word before, another one, or no slot.
fn slot(dice: &mut Dice, machine: &mut Machine) {
    if dice.chance(4) {
        machine.slot_flag = 1;
        let before = machine.pc.wrapping_sub(4);
        machine.branch_address = match dice.below(8) {
            0 => 0,
            1 => u32::MAX,
            2 | 3 => dice.word(),
            _ => before,
        };
    }
}

fn start(dice: &mut Dice, machine: &mut Machine, home: u32) {
    let bad = machine.registers[dice.pick(&BAD_CODE) as usize];
    machine.pc = match dice.below(16) {
        0 => bad,
        1 => machine.registers[CODE[2] as usize],
        _ => home + code_place(dice),
    };
    machine.next_pc = machine.pc.wrapping_add(4);
    slot(dice, machine);
    if machine.slot_flag == 1 && dice.chance(2) {
        machine.next_pc = home + code_place(dice);
    }
}

fn journal_place(dice: &mut Dice, machine: &mut Machine, slots: u32) {
    if slots > 0 {
        machine.on_hand = dice.between(0, slots);
        machine.next_slot = dice.below(slots);
    }
}

pub fn scene(dice: &mut Dice, pool: &Pool) -> Call {
    let mut call = buffers(dice, pool);
    let (translated, user) = (dice.chance(2), dice.chance(3));
    let home = match (translated, user) {
        (false, _) => RAM,
        (true, true) => dice.pick(&HOMES[1..]),
        (true, false) => dice.pick(&HOMES),
    };
    let mut machine = Machine::default();
    machine.status = status(dice, translated, user);
    table(dice, &mut machine, home);
    registers(dice, &mut machine, home, translated);
    machine.hi = dice.word();
    machine.epc = home + code_place(dice);
    machine.bad_vaddr = dice.word();
    machine.entry_hi = dice.word() & 0xFFFF_FFC0;
    machine.index = dice.below(16) << 8;
    machine.time_scale = 1;
    machine.random = dice.between(1, 15) << 8;
    machine.clock = if dice.chance(8) { u64::MAX } else { dice.long() };
    start(dice, &mut machine, home);
    lines::fill(dice, &mut machine, call.paper.len() as u32 / 8);
    let slots = call.slots() as u32;
    journal_place(dice, &mut machine, slots);
    encode(&machine, &mut call.image);
    call
}
