//! Random programs that store few values to few words, again and again, in a loop
//! with a loop inside it, and what leads a machine to them from its reset.

use crate::asm::*;
use crate::dice::Dice;

/// Offsets in RAM, or in the pages that show it: the first words of three
/// frames, some in the middle of each, and the last ones.
pub const PLACES: [u32; 15] = [
    0x0, 0x4, 0x8, 0x800, 0xFFC, 0x1000, 0x1004, 0x1008, 0x1800, 0x1FFC, 0x2000, 0x2004, 0x2008,
    0x2800, 0x2FFC,
];

pub const FRAMES: u32 = 3;

/// Where a program stands: in the bootstrap ROM, in RAM, or in a page that two
/// frames of RAM take turns to hold, one program in each.
#[derive(Clone, Copy, PartialEq, Eq, Debug)]
pub enum Home {
    Rom,
    Ram,
    Pages,
}

pub const PROGRAM: u32 = 0x200;
pub const BOOTSTRAP: u32 = 0x1FC0_0000;
pub const PAGES: u32 = 0x8000_0000;
pub const RAM_BASE: u32 = 0x2000_0000;

/// Registers: the values that are stored, a store as a value, the times round the
/// inner loop, the address of RAM.
const VALUES: [u32; 4] = [8, 9, 10, 11];
const A_STORE: u32 = 12;
const ROUNDS: u32 = 13;
const BASE: u32 = 16;
const TWICE: u32 = 18;
const ACK: u32 = 19;
const DEVICES: u32 = 20;
const PAGE_HIGH: u32 = 21;
const LOWS: [u32; 2] = [22, 23];
const DATA: u32 = 24;
const COMMAND: u32 = 25;

const SB: u32 = 0x28;
const SH: u32 = 0x29;
const SWL: u32 = 0x2A;
const SW: u32 = 0x2B;
const SWR: u32 = 0x2E;

pub const STORES: [u32; 5] = [SB, SH, SWL, SW, SWR];

const PRINTERS: [u32; 3] = [0x1D0, 0x1E0, 0x240];
const TIMER: u32 = 0x20;

/// N off; D, V and G on.
const USABLE: u32 = 0x700;

impl Home {
    pub fn start(self) -> u32 {
        match self {
            Home::Rom => BOOTSTRAP + PROGRAM,
            Home::Ram => RAM_BASE + PROGRAM,
            Home::Pages => PAGES + PROGRAM,
        }
    }

    pub fn base(self) -> u32 {
        if self == Home::Pages {
            PAGES
        } else {
            RAM_BASE
        }
    }
}

pub struct Plan {
    pub home: Home,
    /// The frame behind each page. Page 0 is written anew by the program itself.
    pub behind: [u32; 3],
    pub interrupts: bool,
    pub user: bool,
    /// The handler of exceptions adds 1 to a word of RAM, with translation off.
    pub kernel_stores: bool,
    /// At some time a page gets a second entry, and the machine halts.
    pub doubles: bool,
}

fn lui(register: u32, value: u32) -> u32 {
    immediate(0x0F, 0, register, value)
}

fn load(words: &mut Vec<u32>, register: u32, value: u32) {
    words.push(lui(register, value >> 16));
    if value & 0xFFFF != 0 {
        words.push(immediate(0x0D, register, register, value));
    }
}

fn store(dice: &mut Dice, plan: &Plan) -> u32 {
    let opcode = if dice.chance(2) { SW } else { dice.pick(&STORES) };
    let inside = match opcode {
        // An address error, now and then.
        SW => u32::from(dice.chance(40)),
        SH => 2 * dice.below(2),
        _ => dice.below(4),
    };
    if plan.home != Home::Rom && dice.chance(16) {
        return immediate(SW, BASE, A_STORE, PROGRAM + 4 * dice.below(20));
    }
    let value = if dice.chance(3) { VALUES[0] } else { dice.pick(&VALUES) };
    immediate(opcode, BASE, value, dice.pick(&PLACES) + inside)
}

fn printer(dice: &mut Dice) -> u32 {
    let printer = dice.pick(&PRINTERS);
    match dice.below(3) {
        0 => sw(DATA, printer + 8, DEVICES),
        _ => sw(COMMAND, printer + 4, DEVICES),
    }
}

fn instructions(dice: &mut Dice, plan: &Plan, frame: usize, words: &mut Vec<u32>) {
    let value = dice.pick(&VALUES[1..]);
    let other = dice.pick(&VALUES);
    let instruction = match dice.below(24) {
        0..=11 => store(dice, plan),
        12 | 13 if dice.chance(2) => addiu(value, 0, dice.below(3)),
        12 | 13 => addiu(value, value, dice.between(1, 3)),
        14 => special(0x21, value, other, value),
        15 => special(0x26, value, other, value),
        16 => lw(value, dice.pick(&PLACES), BASE),
        17 => beq(value, other, dice.between(1, 3)),
        18 => lui(value, dice.below(2)),
        19 => dice.pick(&[SYSCALL, BREAK, sw(8, 0, 0), 0xFC00_0000]),
        20 => printer(dice),
        21 if plan.home == Home::Pages && !plan.doubles => {
            words.push(mtc0(LOWS[1 - frame], ENTRY_LO));
            TLBWI
        }
        _ => NOP,
    };
    words.push(instruction);
}

/// What stands in the slot of a branch: often a store.
fn slot(dice: &mut Dice, plan: &Plan) -> u32 {
    if dice.chance(2) {
        store(dice, plan)
    } else {
        NOP
    }
}

/// Random instructions, a loop of more of them, more of them, and back to the start;
/// with further ways back to it behind the end. One value is another each time round.
pub fn program(dice: &mut Dice, plan: &Plan, frame: usize) -> Vec<u8> {
    let mut words = vec![addiu(VALUES[0], VALUES[0], 1)];
    let more = |dice: &mut Dice, words: &mut Vec<u32>, most: u32| {
        let until = words.len() + dice.between(1, most) as usize;
        while words.len() < until {
            instructions(dice, plan, frame, words);
        }
    };
    more(dice, &mut words, 8);
    let rounds = dice.pick(&[2, 9, 40, 150, 400]);
    words.push(addiu(ROUNDS, 0, dice.between(1, rounds)));
    let inner = words.len();
    more(dice, &mut words, 10);
    words.push(addiu(ROUNDS, ROUNDS, 0xFFFF));
    let back = inner as u32;
    words.push(bne(ROUNDS, 0, back.wrapping_sub(words.len() as u32 + 1)));
    words.push(slot(dice, plan));
    if plan.doubles {
        // Page 2 a second time, once the first value has its bit 2 on.
        words.extend([immediate(0x0C, VALUES[0], 26, 4), beq(26, 0, 5), NOP]);
        words.extend([mtc0(TWICE, ENTRY_HI), addiu(26, 0, 9 << 8), mtc0(26, INDEX), TLBWI]);
    }
    more(dice, &mut words, 8);
    words.extend([j(plan.home.start()), slot(dice, plan)]);
    for _ in 0..3 {
        words.extend([j(plan.home.start()), NOP]);
    }
    bytes(&words)
}

fn bytes(words: &[u32]) -> Vec<u8> {
    words.iter().flat_map(|word| word.to_le_bytes()).collect()
}

fn tables(plan: &Plan, words: &mut Vec<u32>) {
    let low = |frame: u32| RAM_BASE + frame * 0x1000 + USABLE;
    load(words, LOWS[0], low(0));
    load(words, LOWS[1], low(1));
    load(words, TWICE, PAGES + 0x2000);
    // The last row that is written is page 0's: index and page stay for TLBWI.
    for page in (0..FRAMES).rev() {
        load(words, PAGE_HIGH, PAGES + page * 0x1000);
        load(words, 26, low(plan.behind[page as usize]));
        words.extend([mtc0(PAGE_HIGH, ENTRY_HI), mtc0(26, ENTRY_LO)]);
        words.extend([addiu(26, 0, page << 8), mtc0(26, INDEX), TLBWI]);
    }
}

/// From the reset to the program.
fn boot(dice: &mut Dice, plan: &Plan) -> Vec<u32> {
    let mut words = vec![lui(BASE, plan.home.base() >> 16), lui(DEVICES, 0x1000)];
    words.extend([
        addiu(DATA, 0, dice.between(32, 126)),
        addiu(COMMAND, 0, dice.pick(&[0, 1, 2, 2, 2, 2])),
    ]);
    words.push(sw(DATA, PRINTERS[0] + 8, DEVICES));
    words.push(sw(COMMAND, PRINTERS[0] + 4, DEVICES));
    words.extend(VALUES.map(|value| addiu(value, 0, dice.below(0x2_0000))));
    load(&mut words, A_STORE, sw(dice.pick(&VALUES), dice.pick(&PLACES), BASE));
    if plan.home == Home::Pages {
        tables(plan, &mut words);
    }
    let mut status = 0x1040_0000;
    if plan.home == Home::Pages {
        status |= 1 << 25;
    }
    if plan.home != Home::Rom {
        status |= u32::from(plan.user) << 3;
    }
    if plan.interrupts {
        words.extend([addiu(ACK, 0, 1), sw(DATA, TIMER, DEVICES)]);
        status |= 0x4404;
    }
    load(&mut words, 26, status);
    words.push(mtc0(26, STATUS));
    load(&mut words, 26, plan.home.start());
    words.extend([jr(26), RFE]);
    words
}

/// Goes on with the next instruction, whatever it was.
fn behind(plan: &Plan) -> Vec<u32> {
    let mut words = vec![mfc0(26, EPC), addiu(26, 26, 4)];
    if plan.home == Home::Pages {
        words.push(mtc0(PAGE_HIGH, ENTRY_HI));
    }
    words.extend([jr(26), RFE]);
    words
}

/// The timer is set again, and the printers are answered.
fn served(dice: &mut Dice, plan: &Plan) -> Vec<u32> {
    let mut words = Vec::new();
    if plan.interrupts {
        words.push(sw(DATA, TIMER, DEVICES));
        words.extend(PRINTERS.map(|printer| sw(ACK, printer + 4, DEVICES)));
    }
    if plan.kernel_stores {
        let place = dice.pick(&PLACES);
        words.extend([lui(27, 0x2000), lw(26, place, 27), addiu(26, 26, 1), sw(26, place, 27)]);
    }
    words.extend(behind(plan));
    words
}

/// With the steps from the reset to the program.
pub fn bootstrap_rom(dice: &mut Dice, plan: &Plan) -> (Vec<u8>, u64) {
    let way = boot(dice, plan);
    let mut rom = bytes(&way);
    assert!(rom.len() <= 0x100, "the way to the program is too long");
    rom.resize(0x100, 0);
    rom.extend(bytes(&behind(plan)));
    rom.resize(0x180, 0);
    rom.extend(bytes(&served(dice, plan)));
    rom.resize(PROGRAM as usize, 0);
    if plan.home == Home::Rom {
        rom.extend(program(dice, plan, 0));
    }
    (rom, way.len() as u64)
}
