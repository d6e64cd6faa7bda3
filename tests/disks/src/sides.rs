//! One machine on both sides: the archive's buffers, between guard bytes, and
//! the reference's. Every call is made on both, and every byte compared.

use crate::fields::byte_name;
use crate::hand;
use crate::lent::Lent;
use crate::names::{index_byte, journal_byte, paper_byte, ram_byte};
use crate::report::unpacked;
use crate::world::{Numbers, World};
use reference::Answer;

pub struct Sides {
    lent: Lent,
    pub theirs: World,
}

/// The answer of both, or in what they differ.
pub type Both = Result<Answer, Vec<String>>;
pub type Checked = Result<(), Vec<String>>;

const MOST_LINES: usize = 8;

impl Sides {
    pub fn new(world: World) -> Sides {
        Sides { lent: Lent::of(&world), theirs: world }
    }

    pub fn reset(&mut self, numbers: &Numbers) -> Both {
        let ours = hand::reset(&mut self.lent, numbers);
        let theirs = self.theirs.reset(numbers);
        self.compared(ours, theirs)
    }

    pub fn run(&mut self, budget: u64, stop: u64) -> Both {
        let ours = hand::run(&mut self.lent, budget, stop);
        let theirs = self.theirs.run(budget, stop);
        self.compared(ours, theirs)
    }

    pub fn take_back(&mut self, steps: u64) -> Both {
        let ours = hand::take_back(&mut self.lent, steps);
        let theirs = self.theirs.take_back(steps);
        self.compared(ours, theirs)
    }

    /// With what is told, which is compared too.
    pub fn last_write(
        &mut self,
        address: u64,
        room: &[u8],
    ) -> Result<(Answer, Vec<u8>), Vec<String>> {
        let (mut ours, mut theirs) = (room.to_vec(), room.to_vec());
        let our_answer = hand::last_write(&mut self.lent, address, &mut ours);
        let answer = self.theirs.last_write(address, &mut theirs);
        let answer = self.compared(our_answer, answer)?;
        if ours != theirs {
            return Err(vec![format!("told: archive {ours:02x?}, reference {theirs:02x?}")]);
        }
        Ok((answer, theirs))
    }

    fn compared(&self, ours: u64, theirs: Answer) -> Both {
        let mut lines = Vec::new();
        if ours != theirs.packed() {
            lines.push(format!("archive:   {}", unpacked(ours)));
            lines.push(format!("reference: {}", unpacked(theirs.packed())));
        }
        lines.extend(self.lent.wrong());
        let Sides { lent, theirs: them } = self;
        let paper_name = |place| paper_byte(place, them.paper.len());
        different(lent.image.content(), &them.image, &byte_name, &mut lines);
        different(lent.ram.content(), &them.ram, &ram_byte, &mut lines);
        different(lent.paper.content(), &them.paper, &paper_name, &mut lines);
        different(lent.journal.content(), &them.journal, &journal_byte, &mut lines);
        different(lent.index.content(), &them.index, &index_byte, &mut lines);
        for (number, (disk, bytes)) in lent.disks.iter().zip(&them.disks).enumerate() {
            let name = |place| format!("disk {number}, byte {place}");
            different(disk.content(), bytes, &name, &mut lines);
        }
        if lines.is_empty() {
            Ok(theirs)
        } else {
            Err(lines)
        }
    }
}

/// Names the first few of the bytes that differ.
fn different(ours: &[u8], theirs: &[u8], name: &dyn Fn(usize) -> String, lines: &mut Vec<String>) {
    if ours == theirs {
        return;
    }
    let pairs = ours.iter().zip(theirs).enumerate().filter(|(_, (our, their))| our != their);
    for (place, (our, their)) in pairs.take(MOST_LINES) {
        lines.push(format!("{}: archive {our:#04x}, reference {their:#04x}", name(place)));
    }
}
