//! Which records are well formed, as far as it is the disks': written from the
//! record's layout and not taken from the reference. With a fault for the model.

use crate::disk;
use crate::faults::Fault::{self, *};
use crate::model_command::{field, COMMAND, DATA0};
use crate::model_record::{distance_of, how};
use crate::record::*;
use crate::rules::broken;
use crate::world::World;
use reference::Machine;

/// What can be wrong, and how many damaged records have to be wrong in that alone.
pub type Wrong = (&'static str, u64, fn(&[u8]) -> bool);

const WROTE: u32 = 3;

#[rustfmt::skip]
pub const WRONGS: [Wrong; 8] = [
    ("a word that holds nothing is not 0", 100, |r| (UNUSED..WORDS).any(|place| word(r, place) != 0)),
    ("a kind over 4", 100, |r| word(r, KIND) > 4),
    ("no register of a disk", 100, |r| word(r, KIND) == DISK_WORD && !field(word(r, WHICH)).map_or(false, |(_, field)| [COMMAND, DATA0].contains(&field))),
    ("a disk's how over 3", 100, |r| disks(r, |_, how| how > WROTE)),
    ("words of a disk that was not at work", 100, |r| disks(r, |n, how| how == 0 && (0..4).any(|field| word(r, disk(n, field)) != 0))),
    ("a RAM place that is none, or of a disk that read nothing", 100, |r| disks(r, |n, how| if how == READ { word(r, disk(n, PLACE)) % 4 != 0 } else { how != 0 && word(r, disk(n, PLACE)) != 0 })),
    ("bytes of a disk that moved none", 100, |r| disks(r, |n, how| how == 1 && word(r, disk(n, BYTES)) != 0)),
    ("a distance of a disk that read nothing", 100, |r| disks(r, |n, how| how != READ && distance_of(r, n) != 0)),
];

fn disks(record: &[u8], wrong: impl Fn(usize, u32) -> bool) -> bool {
    (0..8).any(|number| wrong(number, how(record, number)))
}

/// The part of the layout that a record of a machine without disks has not.
pub fn keeps_layout(fault: Fault, record: &[u8]) -> bool {
    let skipped = match fault {
        ClauseNotJudged(which) => which,
        WordsThatHoldNothingMayHold => 0,
        _ => WRONGS.len(),
    };
    let refused = match fault {
        RecordsOfRegistersAreRefused => word(record, KIND) == DISK_WORD,
        _ => false,
    };
    let mut wrongs = WRONGS.iter().enumerate();
    !refused && !wrongs.any(|(number, (_, _, wrong))| number != skipped && wrong(record))
}

pub const PLACES: [&str; 4] =
    ["a place outside RAM", "a place outside its disk", "a rule of disks", "how against COMMAND"];

/// The places lie in the buffers lent now. `back` is the machine given back.
pub fn places_fit(fault: Fault, record: &[u8], back: &Machine, world: &World) -> bool {
    (0..8).all(|number| match how(record, number) {
        READ if fault == PlacesOutsideRamAreTaken => true,
        READ => u64::from(word(record, disk(number, PLACE))) + 4 <= world.ram.len() as u64,
        WROTE if fault == PlacesOutsideDisksAreTaken => true,
        WROTE => {
            let lent = world.disks[number].len() as u64;
            let due = disk::bytes(&back.disks[number]);
            let length = if fault == PlacesAreJudgedByTheGeometry { due } else { lent };
            disk::on_disk(Fault::NotWrong, &back.disks[number]) + 4 <= length
        }
        _ => true,
    }) && (fault != HowIsHeldAgainstCommand || hows_match(record, back))
}

/// What no clause asks.
pub fn hows_match(record: &[u8], back: &Machine) -> bool {
    (0..8).all(|number| {
        let code = disk::code(&back.disks[number]);
        match how(record, number) {
            0 => true,
            READ => code == disk::READ,
            WROTE => code == disk::WRITE,
            _ => code != disk::READ && code != disk::WRITE,
        }
    })
}

/// What is wrong beside the layout, by PLACES but its last.
pub fn wrong_places(record: &[u8], back: &Machine, world: &World) -> [bool; 3] {
    [
        !places_fit(PlacesOutsideDisksAreTaken, record, back, world),
        !places_fit(PlacesOutsideRamAreTaken, record, back, world),
        broken(back, world.ram.len()) != 0,
    ]
}
