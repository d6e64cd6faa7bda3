//! The fifteen buffers that a station lends, each between guard bytes.

use crate::guarded::Guarded;
use crate::world::World;

pub struct Lent {
    pub image: Guarded,
    pub execution: Guarded,
    pub bootstrap: Guarded,
    pub ram: Guarded,
    pub paper: Guarded,
    pub journal: Guarded,
    pub index: Guarded,
    pub disks: [Guarded; 8],
}

impl Lent {
    pub fn of(world: &World) -> Lent {
        Lent {
            image: Guarded::new(&world.image),
            execution: Guarded::new(&world.execution),
            bootstrap: Guarded::new(&world.bootstrap),
            ram: Guarded::new(&world.ram),
            paper: Guarded::new(&world.paper),
            journal: Guarded::new(&world.journal),
            index: Guarded::new(&world.index),
            disks: world.disks.each_ref().map(|disk| Guarded::new(disk)),
        }
    }

    pub fn world(&self) -> World {
        World {
            image: self.image.content().to_vec(),
            execution: self.execution.content().to_vec(),
            bootstrap: self.bootstrap.content().to_vec(),
            ram: self.ram.content().to_vec(),
            paper: self.paper.content().to_vec(),
            journal: self.journal.content().to_vec(),
            index: self.index.content().to_vec(),
            disks: self.disks.each_ref().map(|disk| disk.content().to_vec()),
        }
    }

    /// Writes all that a call may write.
    pub fn put(&mut self, world: &World) {
        self.image.content_mut().copy_from_slice(&world.image);
        self.ram.content_mut().copy_from_slice(&world.ram);
        self.paper.content_mut().copy_from_slice(&world.paper);
        self.journal.content_mut().copy_from_slice(&world.journal);
        self.index.content_mut().copy_from_slice(&world.index);
        for (disk, bytes) in self.disks.iter_mut().zip(&world.disks) {
            disk.content_mut().copy_from_slice(bytes);
        }
    }

    /// What was written that must not be, or None.
    pub fn wrong(&self) -> Option<String> {
        let others = [&self.image, &self.ram, &self.paper, &self.journal, &self.index];
        let roms = [&self.execution, &self.bootstrap];
        let mut hurt = others.into_iter().chain(&self.disks).filter_map(Guarded::guards_hurt);
        roms.into_iter().find_map(Guarded::touched).or_else(|| hurt.next())
    }
}
