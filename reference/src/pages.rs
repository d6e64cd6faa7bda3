//! The last page that a fetch, and the last that a load or store, was translated
//! on, so that the table is not searched again for the same page.

use crate::address::Access;

/// What was looked for, page and ASID, and the low word of the only entry that
/// matched it.
#[derive(Clone, Copy)]
pub struct Page {
    wanted: u32,
    pub low: u32,
}

/// No page with its ASID: their lowest bits are 0.
const NONE: u32 = 1;

impl Page {
    pub fn found(wanted: u32, low: u32) -> Page {
        Page { wanted, low }
    }

    /// For one access, and not to be met again.
    pub fn once(low: u32) -> Page {
        Page { wanted: NONE, low }
    }

    #[inline]
    pub fn is(&self, wanted: u32) -> bool {
        self.wanted == wanted
    }
}

pub struct Pages {
    fetch: Page,
    data: Page,
}

impl Pages {
    pub fn none() -> Pages {
        Pages { fetch: Page::once(0), data: Page::once(0) }
    }

    #[inline]
    pub fn of(&mut self, access: Access) -> &mut Page {
        match access {
            Access::Fetch => &mut self.fetch,
            Access::Load | Access::Store => &mut self.data,
        }
    }

    /// With every word of coprocessor 0, which alone writes the table. The ASID
    /// is part of what a page is known by, and Status is looked at before it.
    #[inline]
    pub fn forget(&mut self) {
        *self = Pages::none();
    }
}
