//! The Status register and its two stacks.

pub const MASK: u32 = 0x1740_FF3F;

const IE_CURRENT: u32 = 1;
const KU_CURRENT: u32 = 1 << 1;
const BOOT_VECTORS: u32 = 1 << 22;
const VM_CURRENT: u32 = 1 << 24;
const CU0: u32 = 1 << 28;

const KU_IE_STACK: u32 = 0x0000_003F;
const VM_STACK: u32 = 0x0700_0000;

#[derive(Clone, Copy, Debug, Default, PartialEq, Eq)]
pub struct Status(pub u32);

impl Status {
    pub fn interrupts_enabled(self) -> bool {
        self.0 & IE_CURRENT != 0
    }

    pub fn user_mode(self) -> bool {
        self.0 & KU_CURRENT != 0
    }

    pub fn boot_vectors(self) -> bool {
        self.0 & BOOT_VECTORS != 0
    }

    pub fn virtual_memory(self) -> bool {
        self.0 & VM_CURRENT != 0
    }

    pub fn cp0_usable(self) -> bool {
        !self.user_mode() || self.0 & CU0 != 0
    }

    /// The IM field in its own place, bits 8-15.
    pub fn interrupt_mask(self) -> u32 {
        self.0 & 0xFF00
    }

    /// Exception entry: current to previous, previous to old, current 0.
    pub fn pushed(self) -> Status {
        let ku_ie = self.0 << 2 & KU_IE_STACK;
        let vm = self.0 << 1 & VM_STACK;
        Status(self.0 & !(KU_IE_STACK | VM_STACK) | ku_ie | vm)
    }

    /// RFE: previous to current, old to previous, old stays.
    pub fn popped(self) -> Status {
        let ku_ie = self.0 >> 2 & 0x0000_000F;
        let vm = self.0 >> 1 & 0x0300_0000;
        Status(self.0 & !0x0300_000F | ku_ie | vm)
    }
}
