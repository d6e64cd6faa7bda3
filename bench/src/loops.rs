//! The programs that are timed: endless loops in RAM, without an exception.

use crate::station::Station;
use reference::diskless::reset;
use reference::layout::RECORD_BYTES;
use reference::{decode, encode, Entry, Machine, Status, IMAGE_BYTES};
use std::rc::Rc;

const RAM: u32 = 0x2000_0000;
const FRAME: u32 = 0x1000;

/// Of RAM, where nothing else is said.
pub const FRAMES: u32 = 32;

/// The pages of the translated loops; entry n maps page n.
const PAGES: u32 = 0xC000_0000;
const CODE_PAGE: u32 = 7;

const PRINTERS: u32 = 0x1000_01D0;
const PRINTCHR: u32 = 2;

/// Short enough that printers finish all the time, and so long beside the
/// loop's 19 steps that each is busy for 98 of 100 steps.
const PRINTER_DELAY: u64 = 1000;

/// Data lie in the frames behind the code's own, under register 16.
pub struct Loop {
    pub name: &'static str,
    code: &'static [u32],
    /// For what a loop has in its registers besides.
    set_up: fn(&mut Machine, frames: u32),
}

pub const LOOPS: [Loop; 3] = [
    Loop { name: "arithmetic", code: &ARITHMETIC, set_up: |_, _| {} },
    Loop { name: "memory", code: &MEMORY, set_up: |_, _| {} },
    Loop { name: "hopping", code: &HOPPING, set_up: |_, _| {} },
];

/// It prints by physical address, so that translation is nothing to it.
pub const PRINTING: Loop =
    Loop { name: "eight printers", code: &PRINTING_CODE, set_up: printers_at_hand };

/// Over all of RAM, however small it is.
pub const WALKING: Loop = Loop { name: "walk over RAM", code: &WALKING_CODE, set_up: all_of_ram };

impl Loop {
    /// The machine before the loop's first step.
    pub fn station(&self, translated: bool, slots: usize, frames: u32) -> Station {
        let (mut image, mut index) = (vec![0; IMAGE_BYTES], vec![0; 16 * frames as usize]);
        reset(&mut image, &mut index, 1, PRINTER_DELAY, 0xFF);
        let mut machine = decode(&image);
        machine.status = Status(0);
        machine.pc = RAM;
        if translated {
            translate(&mut machine, frames);
        }
        machine.next_pc = machine.pc + 4;
        machine.registers[16] = machine.pc + FRAME;
        (self.set_up)(&mut machine, frames);
        encode(&machine, &mut image);
        // Not 0, so that no page of a buffer is met for the first time in a
        // timed run.
        let mut ram = vec![1; (frames * FRAME) as usize];
        for (place, word) in ram.chunks_exact_mut(4).zip(self.code) {
            place.copy_from_slice(&word.to_le_bytes());
        }
        let (paper, journal) = (vec![1; 65_536], vec![1; RECORD_BYTES * slots]);
        let roms = Rc::new([vec![0; 256], vec![0; 256]]);
        Station { image, roms, ram, paper, journal, index }
    }
}

/// All sixteen entries are in use. The code's page is mapped by one in the
/// middle, and the data lie in the eight pages behind it.
fn translate(machine: &mut Machine, frames: u32) {
    machine.status = Status(0x0100_0000);
    for (number, entry) in (0..).zip(&mut machine.tlb) {
        let frame = (number + frames - CODE_PAGE) % frames;
        *entry = Entry { high: PAGES + number * FRAME, low: (RAM + frame * FRAME) | 0x600 };
    }
    machine.pc = PAGES + CODE_PAGE * FRAME;
}

fn printers_at_hand(machine: &mut Machine, _: u32) {
    machine.registers[16] = PRINTERS;
    machine.registers[17] = PRINTCHR;
}

/// The lower half of each frame is left alone, since the code lies in one.
fn all_of_ram(machine: &mut Machine, frames: u32) {
    machine.registers[16] = RAM;
    machine.registers[17] = (frames * FRAME - 1) & !0x803;
}

const ARITHMETIC: [u32; 15] = [
    0x2508_0001, // addiu $8, $8, 1
    0x0128_4821, // addu  $9, $9, $8
    0x0128_5026, // xor   $10, $9, $8
    0x000A_5942, // srl   $11, $10, 5
    0x0169_602B, // sltu  $12, $11, $9
    0x014C_6823, // subu  $13, $10, $12
    0x01A8_0018, // mult  $13, $8
    0x000D_71C3, // sra   $14, $13, 7
    0x01CB_7825, // or    $15, $14, $11
    0x0000_C012, // mflo  $24
    0x0118_C804, // sllv  $25, $24, $8
    0x3322_07FF, // andi  $2, $25, 0x7ff
    0x0122_4821, // addu  $9, $9, $2
    0x1000_FFF2, // beq   $0, $0, -14
    0x004F_1827, // nor   $3, $2, $15
];

/// Over 32 KiB, with another page every fifth time round; no access of one time
/// round leaves the page of the first.
const MEMORY: [u32; 17] = [
    0x0208_5821, // addu  $11, $16, $8
    0x8D69_0000, // lw    $9, 0($11)
    0x2508_0344, // addiu $8, $8, 0x344
    0x0128_4821, // addu  $9, $9, $8
    0xAD69_0004, // sw    $9, 4($11)
    0x3108_7FDC, // andi  $8, $8, 0x7fdc
    0x916A_0009, // lbu   $10, 9($11)
    0x856C_000E, // lh    $12, 14($11)
    0xA16A_0008, // sb    $10, 8($11)
    0x014C_5021, // addu  $10, $10, $12
    0xA56A_000C, // sh    $10, 12($11)
    0x896D_0012, // lwl   $13, 18($11)
    0x996D_000F, // lwr   $13, 15($11)
    0xA96D_0017, // swl   $13, 23($11)
    0xB96D_0014, // swr   $13, 20($11)
    0x1000_FFF0, // beq   $0, $0, -16
    0x8D6E_0014, // lw    $14, 20($11)
];

/// Another page of eight with every fourth access.
const HOPPING: [u32; 13] = [
    0x0208_5821, // addu  $11, $16, $8
    0x8D69_0000, // lw    $9, 0($11)
    0x2508_1010, // addiu $8, $8, 0x1010
    0x0128_4821, // addu  $9, $9, $8
    0xAD69_0004, // sw    $9, 4($11)
    0x3108_7FF0, // andi  $8, $8, 0x7ff0
    0x0208_6021, // addu  $12, $16, $8
    0x8D8A_0008, // lw    $10, 8($12)
    0x0149_6826, // xor   $13, $10, $9
    0x01AA_702B, // sltu  $14, $13, $10
    0xAD8D_000C, // sw    $13, 12($12)
    0x1000_FFF4, // beq   $0, $0, -12
    0x01EE_7821, // addu  $15, $15, $14
];

/// Starts each printer again and again; a busy one takes no notice.
const PRINTING_CODE: [u32; 19] = [
    0x2508_0001, // addiu $8, $8, 1
    0xAE11_0004, // sw    $17, 4($16)
    0x0128_4821, // addu  $9, $9, $8
    0xAE11_0014, // sw    $17, 20($16)
    0x0128_5026, // xor   $10, $9, $8
    0xAE11_0024, // sw    $17, 36($16)
    0x000A_5942, // srl   $11, $10, 5
    0xAE11_0034, // sw    $17, 52($16)
    0x0169_602B, // sltu  $12, $11, $9
    0xAE11_0044, // sw    $17, 68($16)
    0x014C_6823, // subu  $13, $10, $12
    0xAE11_0054, // sw    $17, 84($16)
    0x000D_71C3, // sra   $14, $13, 7
    0xAE11_0064, // sw    $17, 100($16)
    0x01CB_7825, // or    $15, $14, $11
    0xAE11_0074, // sw    $17, 116($16)
    0xAE08_0008, // sw    $8, 8($16)
    0x1000_FFEE, // beq   $0, $0, -18
    0x012F_4821, // addu  $9, $9, $15
];

/// A load and a store in another frame each time round.
const WALKING_CODE: [u32; 7] = [
    0x2508_1144, // addiu $8, $8, 0x1144
    0x0111_4824, // and   $9, $8, $17
    0x0209_5821, // addu  $11, $16, $9
    0x8D6A_0800, // lw    $10, 0x800($11)
    0x0148_5021, // addu  $10, $10, $8
    0x1000_FFFA, // beq   $0, $0, -6
    0xAD6A_0800, // sw    $10, 0x800($11)
];
