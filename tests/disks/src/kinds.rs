//! What a step can meet of disks, and how often it has to be met.

use crate::disk::{self, ACK, BUSY, READ, READY, RESET, SEEK, WRITE};
use crate::look::{Kind as Access, Look};
use crate::model_command::field;
use crate::model_index::places;
use crate::model_record::how;
use crate::record::{word, KIND, RAM_WORD, WHICH};
use crate::world::World;
use reference::{Disk, Machine};

/// One step of the reference, with its record.
pub struct Sight<'a> {
    pub before: &'a Machine,
    pub after: &'a Machine,
    pub record: &'a [u8],
    /// As the step left it.
    pub world: &'a World,
    /// By the RAM before the step.
    pub look: &'a Look,
    pub entered: bool,
}

pub type Kind = (&'static str, u64, fn(&Sight) -> bool);

#[rustfmt::skip]
pub const KINDS: [Kind; 52] = [
    ("a disk at work", 100_000, |s| s.hows().any(|how| how != 0)),
    ("all eight disks at work", 5_000, |s| s.hows().all(|how| how != 0)),
    ("all eight moved a word", 300, |s| s.hows().all(|how| how >= 2)),
    ("a word read", 100_000, |s| s.hows().any(|how| how == 2)),
    ("a word written", 100_000, |s| s.hows().any(|how| how == 3)),
    ("a disk on its way", 20_000, |s| s.hows().any(|how| how == 1)),
    ("two reads of one word", 5_000, |s| s.pairs(|a, b| a == READ && b == READ)),
    ("a read below a write of one word", 5_000, |s| s.pairs(|a, b| a == READ && b == WRITE)),
    ("a write below a read of one word", 5_000, |s| s.pairs(|a, b| a == WRITE && b == READ)),
    ("a store onto a word that was read", 800, |s| s.store_on(READ)),
    ("a store onto a word that was written", 800, |s| s.store_on(WRITE)),
    ("a narrow store onto a word that was read", 500, |s| s.store_on(READ) && s.look.word.map_or(false, |word| word >> 26 != 0x2B)),
    ("a load of a word that was read", 700, |s| s.access_on(Access::Load, READ)),
    ("an instruction that was read in this step", 3_000, |s| !s.entered && s.moved_at(READ).any(|at| at + 0x2000_0000 == s.before.pc)),
    ("an equal word read", 5_000, |s| places(s.record).iter().any(|it| it.disk.is_some() && s.world.ram_word(it.at) == it.old)),
    ("a read of the last word of RAM", 50, |s| s.moved_at(READ).any(|at| at as usize + 4 == s.world.ram.len())),
    ("a read of the first word of RAM", 200, |s| s.moved_at(READ).any(|at| at == 0)),
    ("reads into two frames", 3_000, |s| s.moved_at(READ).any(|at| at < 4_096) && s.moved_at(READ).any(|at| at >= 4_096)),
    ("a transfer across two frames", 10_000, |s| s.at_work().any(|disk| disk::moves_words(disk) && disk.data0 % 4_096 != 0)),
    ("a first word", 2_000, |s| s.at_work().any(|disk| disk.words_left == 1_024)),
    ("the end of a transfer", 500, |s| s.ends(|code| code == READ || code == WRITE)),
    ("the end of a seek", 2_000, |s| s.ends(|code| code == SEEK)),
    ("the end of a reset", 2_000, |s| s.ends(|code| code == RESET)),
    ("the end of a disk and of a printer", 300, |s| s.ends(|_| true) && s.before.printers.iter().any(|it| it.ticks_left == 1)),
    ("an interrupt by a disk that ends", 500, |s| s.entered && s.code() == 0 && s.ends(|_| true)),
    ("an interrupt with disks at work", 2_000, |s| s.entered && s.code() == 0 && s.hows().any(|how| how >= 2)),
    ("another exception with disks at work", 2_000, |s| s.entered && s.code() != 0 && s.hows().any(|how| how >= 2)),
    ("RESET taken", 300, |s| s.commanded(|code, now| code == RESET && now == BUSY)),
    ("ACK taken", 300, |s| s.commanded(|code, now| code == ACK && now == READY)),
    ("SEEKCYL taken", 200, |s| s.commanded(|code, now| code == SEEK && now == BUSY)),
    ("SEEKCYL with STATUS 4", 200, |s| s.commanded(|code, now| code == SEEK && now == 4)),
    ("READBLK taken", 100, |s| s.commanded(|code, now| code == READ && now == BUSY)),
    ("READBLK with STATUS 5", 300, |s| s.commanded(|code, now| code == READ && now == 5)),
    ("READBLK with STATUS 7", 60, |s| s.commanded(|code, now| code == READ && now == 7)),
    ("WRITEBLK taken", 100, |s| s.commanded(|code, now| code == WRITE && now == BUSY)),
    ("WRITEBLK with STATUS 6", 300, |s| s.commanded(|code, now| code == WRITE && now == 6)),
    ("WRITEBLK with STATUS 7", 60, |s| s.commanded(|code, now| code == WRITE && now == 7)),
    ("an unknown code", 300, |s| s.commanded(|code, now| code > WRITE && now == 2)),
    ("a command with bits of no field", 200, |s| s.stored_to(4, |disk| disk.status != BUSY && disk.data1 != 0) && s.look.word.map_or(false, |word| s.before.registers[(word >> 16 & 31) as usize] >> 24 != 0)),
    ("a command to a disk in error", 1_000, |s| s.stored_to(4, |disk| disk.status > BUSY)),
    ("a command to a disk that ends in this step", 30, |s| s.stored_to(4, |disk| disk.ticks_left == 1 || disk.words_left == 1)),
    ("a command to a busy disk", 3_000, |s| s.stored_to(4, |disk| disk.ticks_left > 1 || disk.words_left > 1)),
    ("DATA0 of a busy disk", 1_000, |s| s.stored_to(8, |disk| disk.ticks_left > 1 || disk.words_left > 1)),
    ("DATA0 of an idle disk", 1_000, |s| s.stored_to(8, |disk| disk.status != 0 && disk.status != BUSY)),
    ("a command to a disk that is not there", 500, |s| s.stored_to(4, |disk| disk.status == 0)),
    ("DATA0 of a disk that is not there", 200, |s| s.stored_to(8, |disk| disk.status == 0)),
    ("a store to STATUS or DATA1", 500, |s| s.stored_to(0, |_| true) || s.stored_to(12, |_| true)),
    ("a disk's register loaded", 3_000, |s| s.loads_device(|offset| field(offset).is_some())),
    ("a map loaded", 500, |s| s.loads_device(|offset| offset == 0x28 || offset == 0x3C)),
    ("a command to a disk with a count of 0", 300, |s| s.stored_to(4, |it| it.status != 0 && disk::bytes(it) == 0)),
    ("a command to a pending disk", 300, |s| s.stored_at(4).map_or(false, |number| s.before.disks_pending >> number & 1 != 0)),
    ("a step with an old word that would have stopped the run", 50, |s| s.look.halt().is_some()),
];

impl Sight<'_> {
    fn hows(&self) -> impl Iterator<Item = u32> + '_ {
        (0..8).map(|number| how(self.record, number))
    }

    fn at_work(&self) -> impl Iterator<Item = &Disk> {
        self.before.disks.iter().filter(|disk| disk.status == BUSY)
    }

    /// The places in RAM of the words that this code moves.
    fn moved_at(&self, code: u32) -> impl Iterator<Item = u32> + '_ {
        let moves = self.at_work().filter(move |it| disk::code(it) == code);
        moves.map(|it| disk::in_ram(it) as u32)
    }

    /// Two disks on one word, the lower number first.
    fn pairs(&self, wanted: impl Fn(u32, u32) -> bool) -> bool {
        let moves: Vec<&Disk> = self.at_work().filter(|it| disk::moves_words(it)).collect();
        moves.iter().enumerate().any(|(number, a)| {
            moves[number + 1..]
                .iter()
                .any(|b| disk::in_ram(a) == disk::in_ram(b) && wanted(disk::code(a), disk::code(b)))
        })
    }

    fn store_on(&self, code: u32) -> bool {
        let place = word(self.record, WHICH);
        word(self.record, KIND) == RAM_WORD && self.moved_at(code).any(|at| at == place)
    }

    fn access_on(&self, kind: Access, code: u32) -> bool {
        let access = self.look.data.filter(|it| it.kind == kind && !self.entered);
        let moved = |address: u32| self.moved_at(code).any(|at| at + 0x2000_0000 == address & !3);
        access.map_or(false, |it| moved(it.address))
    }

    fn code(&self) -> u32 {
        self.after.cause >> 2 & 31
    }

    fn ends(&self, wanted: impl Fn(u32) -> bool) -> bool {
        self.at_work()
            .any(|disk| wanted(disk::code(disk)) && (disk.ticks_left == 1 || disk.words_left == 1))
    }

    fn device(&self, kind: Access) -> Option<u32> {
        let access = self.look.data.filter(|it| it.kind == kind && !self.entered)?;
        access.address.checked_sub(0x1000_0000).filter(|offset| *offset < 0x2D0)
    }

    fn loads_device(&self, wanted: impl Fn(u32) -> bool) -> bool {
        self.device(Access::Load).map_or(false, wanted)
    }

    /// The disk whose register was stored to.
    fn stored_at(&self, register: u32) -> Option<usize> {
        let (number, to) = self.device(Access::Store).and_then(field)?;
        (to == register).then_some(number)
    }

    fn stored_to(&self, register: u32, wanted: impl Fn(&Disk) -> bool) -> bool {
        self.stored_at(register).map_or(false, |number| wanted(&self.before.disks[number]))
    }

    /// A command that an idle disk took, with the STATUS that it led to.
    fn commanded(&self, wanted: impl Fn(u32, u32) -> bool) -> bool {
        let number = self.stored_at(4).filter(|number| self.before.disks[*number].data1 != 0);
        number.map_or(false, |number| {
            let (before, after) = (&self.before.disks[number], &self.after.disks[number]);
            before.status != BUSY && wanted(disk::code(after), after.status)
        })
    }
}
