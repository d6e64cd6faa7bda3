//! What a wrong panel would leave behind, with what it would show for `before`.

use crate::ask::{due, frame_due};
use crate::faults::Fault;
use crate::lent::empty_index;
use crate::panel::Panel;
use crate::screen::{self, Before, Blame};
use crate::session::Said;
use crate::show;
use crate::world::World;
use reference::diskless::{run_with_records, take_back};
use reference::{decode, encode, Machine};

fn flip(bytes: &mut [u8]) {
    if let Some(byte) = bytes.last_mut() {
        *byte ^= 0x40;
    }
}

fn change(panel: &mut Panel, change: impl FnOnce(&mut Machine)) {
    let image = panel.lent.image.content_mut();
    let mut machine = decode(image);
    change(&mut machine);
    encode(&machine, image);
}

fn step_back(world: &mut World) {
    let panel = &mut world.session.panel;
    let journal = panel.lent.journal.content().to_vec();
    let (image, ram) = (panel.lent.image.content_mut(), panel.lent.ram.content_mut());
    let mut index = empty_index(ram.len());
    take_back(image, ram, panel.lent.paper.content_mut(), &journal, &mut index, 1);
}

fn step_on(world: &mut World) {
    let panel = &mut world.session.panel;
    let mut index = empty_index(panel.lent.ram.len());
    run_with_records(
        panel.lent.image.content_mut(),
        panel.lent.execution.content(),
        panel.lent.bootstrap.content(),
        panel.lent.ram.content_mut(),
        panel.lent.paper.content_mut(),
        panel.lent.journal.content_mut(),
        &mut index,
        1,
        0,
    );
}

impl Fault {
    pub fn at_blame(self, world: &mut World, address: u64, said: &mut Said) {
        said.screen = self.shown(world, address, &said.screen);
        let panel = &mut world.session.panel;
        match self {
            Fault::BlameStaysBack => step_back(world),
            Fault::BlameWritesImage => flip(panel.lent.image.content_mut()),
            Fault::BlameWritesRam => flip(panel.lent.ram.content_mut()),
            Fault::BlameWritesPaper => flip(panel.lent.paper.content_mut()),
            Fault::BlameWritesJournal => flip(panel.lent.journal.content_mut()),
            Fault::BlameWritesIndex => flip(panel.lent.index.content_mut()),
            _ => {}
        }
    }

    /// `before` has been said; the reference has not gone back yet.
    pub fn at_before(self, world: &mut World, address: u64, said: &mut Said) {
        let change = match due(world, address) {
            Blame::Changed { change, .. } => change,
            Blame::None { on_hand, .. } => {
                if self == Fault::BeforeNoneGoesBack && on_hand > 0 {
                    step_back(world);
                }
                return;
            }
            Blame::Refused { .. } => {
                if self == Fault::BeforeRefusedWrites {
                    flip(world.session.panel.lent.ram.content_mut());
                }
                return;
            }
        };
        self.wrong_stand(world);
        let mut told = screen::before(&said.screen);
        if let Before::Stands { took_back, old, new, instruction, frame, .. } = &mut told {
            match self {
                Fault::BeforeOldForNew => *new = *old,
                Fault::BeforeFrameOfNow => *frame = frame_due(world, address),
                Fault::BeforeTookOneMore => *took_back += 1,
                Fault::BeforeInstructionOfNow => {
                    *instruction = world.past.instruction_now(change.pc)
                }
                _ => {}
            }
        }
        said.screen = show::before(&told);
    }

    fn wrong_stand(self, world: &mut World) {
        let on_hand = world.past.on_hand as u32;
        let next_slot = world.past.next_slot as u32;
        let ram = world.past.ram().to_vec();
        let paper = world.past.paper().to_vec();
        let index = world.past.index();
        let panel = &mut world.session.panel;
        match self {
            Fault::BeforeOneStepLate => step_on(world),
            Fault::BeforeOneStepEarly => step_back(world),
            Fault::BeforeKeepsOnHand => change(panel, |machine| machine.on_hand = on_hand),
            Fault::BeforeKeepsNextSlot => change(panel, |machine| machine.next_slot = next_slot),
            Fault::BeforeKeepsRam => panel.lent.ram.content_mut().copy_from_slice(&ram),
            Fault::BeforeKeepsPaper => panel.lent.paper.content_mut().copy_from_slice(&paper),
            Fault::BeforeKeepsIndex => panel.lent.index.content_mut().copy_from_slice(&index),
            Fault::BeforeWritesJournal => flip(panel.lent.journal.content_mut()),
            _ => {}
        }
    }
}
