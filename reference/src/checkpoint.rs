//! A machine and its buffers, as they were before a run.

use std::rc::Rc;

use crate::answer::Answer;
use crate::calls::run;
use crate::give_back::Lengths;

pub struct Roms {
    pub execution: Vec<u8>,
    pub bootstrap: Vec<u8>,
}

pub struct Checkpoint {
    /// Counted in steps from the first one.
    pub at: u64,
    pub roms: Rc<Roms>,
    image: Vec<u8>,
    ram: Vec<u8>,
    paper: Vec<u8>,
    disks: [Vec<u8>; 8],
    journal_len: usize,
}

impl Checkpoint {
    #[allow(clippy::too_many_arguments)]
    pub fn of(
        at: u64,
        roms: &Rc<Roms>,
        image: &[u8],
        ram: &[u8],
        paper: &[u8],
        disks: &[&mut [u8]; 8],
        journal_len: usize,
    ) -> Checkpoint {
        Checkpoint {
            at,
            roms: Rc::clone(roms),
            image: image.to_vec(),
            ram: ram.to_vec(),
            paper: paper.to_vec(),
            disks: disks.each_ref().map(|disk| disk.to_vec()),
            journal_len,
        }
    }

    /// Whether buffers of the same lengths were lent then.
    pub fn is_of(&self, lengths: &Lengths) -> bool {
        self.ram.len() == lengths.ram
            && self.paper.len() == lengths.paper
            && self.journal_len == lengths.journal
            && self.disks.each_ref().map(Vec::len) == lengths.disks
    }

    /// Runs so many steps from here again, into these buffers. The image that it
    /// leaves is answered beside.
    pub fn replay(
        &self,
        ram: &mut [u8],
        paper: &mut [u8],
        journal: &mut [u8],
        mut disks: [&mut [u8]; 8],
        steps: u64,
    ) -> (Answer, Vec<u8>) {
        let mut image = self.image.clone();
        ram.copy_from_slice(&self.ram);
        paper.copy_from_slice(&self.paper);
        for (disk, before) in disks.iter_mut().zip(&self.disks) {
            disk.copy_from_slice(before);
        }
        let Roms { execution, bootstrap } = &*self.roms;
        let answer = run(&mut image, execution, bootstrap, ram, paper, journal, disks, steps, 0);
        (answer, image)
    }
}
