//! What a sequence starts with.

use crate::boot;
use crate::call::Call;
use crate::dice::Dice;
use crate::pool::Pool;
use crate::scene::scene;
use reference::layout::RECORD_BYTES;
use reference::{decode, encode, Machine, Printer};

pub struct Start {
    pub name: &'static str,
    pub call: Call,
    /// The parameters of a reset, where the sequence starts with one.
    pub reset: Option<[u64; 3]>,
    /// How long a first run should be at least, to get past the code that
    /// follows a reset.
    pub lead: u64,
}

pub const LONGEST: usize = 32_768;

/// The longest journal is costly to compare, so that it is rare.
pub fn slots(dice: &mut Dice) -> usize {
    match dice.below(400) {
        0 => LONGEST,
        _ => dice.pick(&[0, 1, 1, 2, 2, 3, 3, 17, 17, 17, 17, 17]),
    }
}

pub fn start(dice: &mut Dice, pool: &Pool, slots: usize) -> Start {
    let mut call = scene(dice, pool);
    call.journal = pool.bytes(dice, RECORD_BYTES * slots);
    let mut start = Start { name: "a scene", call, reset: None, lead: 0 };
    place(dice, &mut start.call, slots);
    match dice.below(16) {
        0..=6 => {
            start.name = "a reset";
            let (parameters, steps) = boot::lay(dice, &mut start.call);
            start.reset = Some(parameters);
            start.lead = if dice.chance(4) { 0 } else { steps };
            let length = start.call.image.len();
            start.call.image = pool.bytes(dice, length);
        }
        7..=9 => {
            start.name = "eight printers that finish together";
            together(dice, pool, &mut start.call);
        }
        _ => {}
    }
    start
}

fn change(call: &mut Call, change: impl FnOnce(&mut Machine)) {
    let mut machine = decode(&call.image);
    change(&mut machine);
    encode(&machine, &mut call.image);
}

/// Mostly nothing on hand; else records that no step has written.
fn place(dice: &mut Dice, call: &mut Call, slots: usize) {
    let most = slots as u32;
    let on_hand = if dice.chance(16) { dice.between(0, most) } else { 0 };
    let next_slot = if most == 0 { 0 } else { dice.below(most) };
    change(call, |machine| {
        machine.on_hand = on_hand;
        machine.next_slot = next_slot;
    });
}

/// No two printers that were started by stores finish in one step; from an
/// image that keeps the rules all eight may.
pub fn together(dice: &mut Dice, pool: &Pool, call: &mut Call) {
    let eighth = dice.pick(&[1, 2, 8, 8, 100]);
    call.paper = pool.bytes(dice, 8 * eighth as usize);
    let ticks = dice.between(1, 30);
    let delay = ticks + dice.below(4);
    let mut printers = [Printer::default(); 8];
    for printer in &mut printers {
        *printer = Printer {
            status: 3,
            command: if dice.chance(24) { 0 } else { 2 },
            data0: dice.word(),
            ticks_left: if dice.chance(24) { dice.between(1, ticks) } else { ticks },
            paper_count: if dice.chance(24) { eighth } else { dice.below(eighth) },
        };
    }
    change(call, |machine| {
        machine.installed = 0xFF;
        machine.printer_delay = delay;
        machine.printers = printers;
        machine.pending = 0;
        machine.cause &= !0x4000;
    });
}
