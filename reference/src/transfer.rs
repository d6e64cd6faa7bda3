//! One word of a transfer between a disk and RAM.

use crate::geometry::READBLK;
use crate::machine::Disk;
use crate::memory::RAM_BASE;
use crate::sizes::FRAME_BYTES;

/// Moves the word of this tick: four bytes in their order. The block of RAM alone
/// is lent on, so that no other byte of it can change.
pub fn move_word(disk: &Disk, ram: &mut [u8], bytes: &mut [u8]) {
    let block = &mut ram[(disk.data0 - RAM_BASE) as usize..][..FRAME_BYTES];
    let in_ram = &mut block[disk.bytes_moved() as usize..][..4];
    let on_disk = &mut bytes[disk.place_on_disk() as usize..][..4];
    if disk.code() == READBLK {
        in_ram.copy_from_slice(on_disk);
    } else {
        on_disk.copy_from_slice(in_ram);
    }
}
