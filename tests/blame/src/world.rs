//! A random station: made by the panel itself, or as one that was saved.

use crate::dice::Dice;
use crate::guarded::Guarded;
use crate::lent::empty_index;
use crate::met::Met;
use crate::panel::Panel;
use crate::past::{Past, FRAME};
use crate::program::*;
use crate::session::{Manner, Session};
use reference::diskless::reset;
use reference::{decode, encode, IMAGE_BYTES};

const RECORD_BYTES: usize = 512;

/// Five numbers of slots by name; the sixth is any other up to 80. The larger
/// ones come up more often.
const SLOTS: [u32; 5] = [0, 1, 2, 3, 17];
const CHOICES: [usize; 12] = [0, 1, 2, 2, 3, 3, 4, 4, 4, 5, 5, 5];

pub struct World {
    pub session: Session,
    pub past: Past,
    pub home: Home,
    /// Steps from the reset to the program.
    pub way: u64,
    pub taken_back: bool,
}

struct Sizes {
    slots: u32,
    paper: u32,
    delay: u32,
    installed: u32,
}

fn plan(dice: &mut Dice) -> Plan {
    let home = dice.pick(&[Home::Rom, Home::Ram, Home::Pages]);
    let least = if home == Home::Pages { 2 } else { 1 };
    let frames = dice.pick(&[least, 2, 3, 3]);
    // Page 0 begins with frame 0, where the first program is.
    let behind = if frames == 3 && dice.chance(2) { [0, 2, 1] } else { [0, 1, 2] };
    Plan { home, frames, behind, interrupts: dice.chance(2), user: dice.chance(2) }
}

fn sizes(dice: &mut Dice, met: &mut Met) -> Sizes {
    let choice = dice.pick(&CHOICES);
    met.by_slots[choice] += 1;
    let slots = SLOTS.get(choice).copied().unwrap_or_else(|| dice.between(4, 80));
    Sizes {
        slots,
        paper: 8 * dice.pick(&[0, 1, 3, 10, 20]),
        delay: dice.between(1, 8),
        installed: dice.pick(&[0, 1, 0x83, 0xFF]),
    }
}

fn made(panel: Panel, manner: Manner, plan: &Plan, sizes: &Sizes) -> (Session, Past) {
    let mut session = Session::open(panel, manner, false);
    let Sizes { slots, paper, delay, installed } = sizes;
    let line = format!(
        "new ram {} paper {paper} journal {slots} delay {delay} printers {installed} \
         execution e bootstrap b",
        plan.frames
    );
    let said = session.say(&line);
    assert!(said.screen.starts_with("The station is made"), "{line}:\n{}", said.screen);
    let mut image = vec![0; IMAGE_BYTES];
    reset(&mut image, &mut [0; 16], 1, u64::from(*delay), u64::from(*installed));
    let ram = vec![0; plan.frames as usize * FRAME];
    let paper = vec![0; *paper as usize];
    let roms = [session.panel.lent.execution.content(), session.panel.lent.bootstrap.content()];
    let past = Past::new(decode(&image), &ram, &paper, roms, u64::from(*slots));
    (session, past)
}

/// Any bytes in RAM, paper and journal, any next slot, and a clock that is near
/// a carry or its end, now and then.
fn saved(
    dice: &mut Dice,
    mut panel: Panel,
    manner: Manner,
    plan: &Plan,
    sizes: &Sizes,
    way: u64,
) -> (Session, Past) {
    let mut image = vec![0; IMAGE_BYTES];
    reset(&mut image, &mut [0; 16], 1, u64::from(sizes.delay), u64::from(sizes.installed));
    let mut machine = decode(&image);
    machine.next_slot = if sizes.slots == 0 { 0 } else { dice.below(sizes.slots) };
    machine.clock = match dice.below(4) {
        0 => (1 << 32) - way - u64::from(dice.below(50)),
        1 => u64::MAX - way - u64::from(dice.below(50)),
        2 => dice.any_size(),
        _ => 0,
    };
    encode(&machine, &mut image);
    let mut ram = vec![0; plan.frames as usize * FRAME];
    for place in PLACES {
        if let Some(byte) = ram.get_mut(place as usize) {
            *byte = dice.below(3) as u8;
        }
    }
    let paper = dice.bytes(sizes.paper as usize);
    panel.lent.image = Guarded::new(&image);
    panel.lent.ram = Guarded::new(&ram);
    panel.lent.paper = Guarded::new(&paper);
    panel.lent.journal = Guarded::new(&dice.bytes(sizes.slots as usize * RECORD_BYTES));
    panel.lent.index = Guarded::new(&empty_index(ram.len()));
    let roms = [panel.lent.execution.content(), panel.lent.bootstrap.content()];
    let past = Past::new(machine, &ram, &paper, roms, u64::from(sizes.slots));
    (Session::open(panel, manner, true), past)
}

impl World {
    pub fn new(dice: &mut Dice, met: &mut Met) -> World {
        let plan = plan(dice);
        let sizes = sizes(dice, met);
        let (rom, way) = bootstrap_rom(dice, &plan);
        let panel = Panel::new(&[0; 4], &rom);
        let manner = if dice.chance(4) { Manner::Arguments } else { Manner::Terminal };
        met.by_home[plan.home as usize] += 1;
        met.by_frames[plan.frames as usize - 1] += 1;
        met.arguments += u64::from(manner == Manner::Arguments);
        let by_panel = dice.chance(2);
        met.made += u64::from(by_panel);
        let (session, past) = if by_panel {
            made(panel, manner, &plan, &sizes)
        } else {
            saved(dice, panel, manner, &plan, &sizes, way)
        };
        let mut world = World { session, past, home: plan.home, way, taken_back: false };
        world.check("a new station");
        let programs = match plan.home {
            Home::Rom => 0,
            Home::Ram => 1,
            Home::Pages => 2,
        };
        for frame in 0..programs {
            let bytes = program(dice, &plan, frame);
            world.load(frame * FRAME + PROGRAM as usize, &bytes);
        }
        world
    }

    pub fn load(&mut self, place: usize, bytes: &[u8]) {
        let line = format!("load f 0x{:x}", 0x2000_0000 + place);
        let said = self.session.say_with(&line, bytes);
        assert!(said.screen.starts_with("Loaded "), "{line}:\n{}", said.screen);
        // Of an empty journal any slot may be the next.
        let next_slot = u64::from(decode(self.session.panel.lent.image.content()).next_slot);
        assert!(next_slot < self.past.slots.max(1), "{line}: next slot {next_slot}");
        self.past.load(place, bytes, next_slot);
        self.check(&line);
    }

    /// Image, RAM and paper beside the reference's, and the index beside what its states say.
    pub fn check(&self, when: &str) {
        let panel = &self.session.panel;
        let image = self.past.image();
        let differ =
            panel.lent.image.content().iter().zip(&image).position(|(now, due)| now != due);
        assert_eq!(differ, None, "the first byte of the image that differs, after {when}");
        assert!(panel.lent.ram.content() == self.past.ram(), "RAM, after {when}");
        assert!(panel.lent.paper.content() == self.past.paper(), "the paper, after {when}");
        assert!(panel.lent.index.content() == self.past.index(), "the index, after {when}");
    }

    /// A new session on the same buffers, as behind a save.
    pub fn reopen(self, manner: Manner) -> World {
        World { session: Session::open(self.session.close(), manner, true), ..self }
    }
}
