//! What a wrong stub would say, and leave behind.

use crate::faults::Fault;
use crate::stub::Stub;
use crate::talk::Told;
use crate::world::World;
use reference::layout::RECORD_BYTES;
use reference::{decode, encode, Machine};

const STACK: u32 = 29;
const PC: u32 = 37;

fn change(told: &mut Told, number: u32, change: impl Fn(u32) -> u32) {
    for (other, value) in &mut told.registers {
        if *other == number {
            *value = change(*value);
        }
    }
}

pub fn say(fault: Option<Fault>, world: &World, told: &mut Told) {
    let fault = match fault {
        Some(fault) => fault,
        None => return,
    };
    let plain = told.watch.is_none() && !told.begin && told.signal == 5;
    let watch = world.points.watches.first();
    match fault {
        Fault::PcOfTheNext => change(told, PC, |pc| pc.wrapping_add(4)),
        Fault::StackPointerStale => change(told, STACK, |sp| sp ^ 4),
        Fault::WatchBesideTheWatched => {
            let beside = |at: u32| {
                let inside =
                    |watch: &&crate::points::Watch| at.wrapping_sub(watch.address) < watch.bytes;
                let watch = world.points.watches.iter().find(inside);
                watch.map_or(at, |watch| watch.address.wrapping_sub(1))
            };
            told.watch = told.watch.map(beside);
        }
        Fault::WatchNotTold => told.watch = None,
        Fault::WatchToldForABreakpoint if plain => told.watch = watch.map(|watch| watch.address),
        Fault::HistoryEndNotTold => told.begin = false,
        Fault::HistoryEndToldEarly if plain => told.begin = true,
        Fault::InterruptAsTrap => told.signal = 5,
        Fault::BreakToldUnasked if plain && !world.swbreak => told.swbreak = true,
        _ => {}
    }
}

fn with_machine(stub: &mut Stub, change: impl FnOnce(&mut Machine)) {
    let image = stub.image.content_mut();
    let mut machine = decode(image);
    change(&mut machine);
    encode(&machine, image);
}

fn flip(bytes: &mut [u8], at: usize) {
    if let Some(byte) = bytes.get_mut(at) {
        *byte ^= 0x40;
    }
}

pub fn leave(fault: Option<Fault>, world: &mut World) {
    let fault = match fault {
        Some(fault) => fault,
        None => return,
    };
    let slots = world.past.slots as u32;
    let stub = &mut world.stub;
    let now = decode(stub.image.content());
    let oldest = (now.next_slot + slots - now.on_hand.min(slots)).checked_rem(slots).unwrap_or(0);
    match fault {
        Fault::OneOnHandFewer => with_machine(stub, |m| m.on_hand = m.on_hand.saturating_sub(1)),
        Fault::HalfOnHandLost => with_machine(stub, |m| m.on_hand /= 2),
        Fault::NextSlotOneOn if slots > 1 => {
            with_machine(stub, |m| m.next_slot = (m.next_slot + 1) % slots)
        }
        Fault::OldestSlotOverwritten if now.on_hand > 0 => {
            flip(stub.journal.content_mut(), oldest as usize * RECORD_BYTES + 8)
        }
        Fault::UnusedSlotWritten if now.on_hand < slots => {
            flip(stub.journal.content_mut(), now.next_slot as usize * RECORD_BYTES)
        }
        Fault::IndexEntryLost => {
            let mut entries = stub.index.content_mut().chunks_exact_mut(16);
            if let Some(entry) = entries.find(|entry| entry[3] == 1) {
                entry.fill(0);
            }
        }
        Fault::IndexEntryStale => {
            let mut entries = stub.index.content_mut().chunks_exact_mut(16);
            if let Some(entry) = entries.find(|entry| entry[3] == 1) {
                entry[11] ^= 1;
            }
        }
        Fault::RamWritten => flip(stub.ram.content_mut(), 0x1FFD),
        Fault::PaperWritten => flip(stub.paper.content_mut(), 0),
        Fault::ImageWritten => with_machine(stub, |m| m.registers[30] ^= 1),
        _ => {}
    }
}
