//! The lent buffers that a step reads and writes, by physical address.

pub const EXECUTION_ROM_BASE: u32 = 0;
pub const DEVICE_BASE: u32 = 0x1000_0000;
pub const DEVICE_BYTES: u32 = 0x2D0;
pub const BOOTSTRAP_ROM_BASE: u32 = 0x1FC0_0000;
pub const RAM_BASE: u32 = 0x2000_0000;

/// The buffers of a run that has passed the size tests.
pub struct Memory<'a> {
    pub execution_rom: &'a [u8],
    pub bootstrap_rom: &'a [u8],
    pub ram: &'a mut [u8],
    pub paper: &'a mut [u8],
    pub disks: [&'a mut [u8]; 8],
}

/// What a machine without disks is lent for them.
pub fn no_disks() -> [&'static mut [u8]; 8] {
    [&mut [], &mut [], &mut [], &mut [], &mut [], &mut [], &mut [], &mut []]
}

fn word_at(bytes: &[u8], place: usize) -> Option<u32> {
    let four = bytes.get(place..place + 4)?;
    Some(u32::from_le_bytes(four.try_into().ok()?))
}

/// The place of an aligned word in RAM, counted from RAM's start. Every
/// address below RAM's base wraps to a place far behind its largest size.
pub fn ram_place(address: u32) -> usize {
    (address.wrapping_sub(RAM_BASE) & !3) as usize
}

impl Memory<'_> {
    /// The same buffers, lent on by value to what is done with disks at work. If the
    /// address of a run's own were lent, no step could keep them in registers.
    #[inline]
    pub(crate) fn lent_on(&mut self) -> Memory<'_> {
        Memory {
            execution_rom: self.execution_rom,
            bootstrap_rom: self.bootstrap_rom,
            ram: self.ram,
            paper: self.paper,
            disks: self.disks.each_mut().map(|disk| &mut **disk),
        }
    }

    /// The disks alone, to be read.
    #[inline]
    pub(crate) fn disks_lent_on(&self) -> [&[u8]; 8] {
        self.disks.each_ref().map(|disk| &**disk)
    }

    pub(crate) fn disk_lengths(&self) -> [usize; 8] {
        std::array::from_fn(|number| self.disks[number].len())
    }

    /// The aligned word of RAM or ROM that holds the byte at `address`, or
    /// None in the device area and where nothing is installed.
    #[inline]
    pub fn word(&self, address: u32) -> Option<u32> {
        match word_at(self.ram, ram_place(address)) {
            None => self.rom_word(address & !3),
            word => word,
        }
    }

    fn rom_word(&self, address: u32) -> Option<u32> {
        if address >= BOOTSTRAP_ROM_BASE {
            word_at(self.bootstrap_rom, (address - BOOTSTRAP_ROM_BASE) as usize)
        } else {
            word_at(self.execution_rom, (address - EXECUTION_ROM_BASE) as usize)
        }
    }

    #[inline]
    pub fn ram_word(&self, place: usize) -> Option<u32> {
        word_at(self.ram, place)
    }

    #[inline]
    pub fn set_ram_word(&mut self, place: usize, value: u32) {
        self.ram[place..place + 4].copy_from_slice(&value.to_le_bytes());
    }
}

/// The offset in the device area, if `address` lies in it.
#[inline]
pub fn device_offset(address: u32) -> Option<u32> {
    let offset = address.wrapping_sub(DEVICE_BASE);
    (offset < DEVICE_BYTES).then_some(offset)
}
