//! Break points and watches.

use crate::faults::Fault;

#[derive(Clone, Copy, PartialEq, Eq, Debug)]
pub struct Break {
    /// 0 for Z0, 1 for Z1.
    pub kind: u32,
    pub address: u32,
}

#[derive(Clone, Copy, PartialEq, Eq, Debug)]
pub struct Watch {
    pub address: u32,
    pub bytes: u32,
    /// The place in RAM of its first byte; the others follow it.
    pub place: u32,
}

impl Break {
    pub fn text(&self) -> String {
        format!("{},{:x},4", self.kind, self.address)
    }
}

impl Watch {
    pub fn text(&self) -> String {
        format!("2,{:x},{:x}", self.address, self.bytes)
    }

    /// Whether a word at a place, before and after, differs in a watched byte.
    pub fn is_hit(&self, fault: Option<Fault>, (at, old, new): (u32, u32, u32)) -> bool {
        let bytes = if fault == Some(Fault::LongWatchCut) { self.bytes.min(4) } else { self.bytes };
        let watched = |place: &u32| (self.place..self.place + bytes).contains(place);
        let mut of_word = (at..at + 4).filter(watched).peekable();
        match fault {
            Some(Fault::EqualStoreCounts) => of_word.peek().is_some(),
            Some(Fault::NeighbourByteCounts) => of_word.peek().is_some() && old != new,
            Some(Fault::NarrowChangesOverlooked) if (old ^ new).count_ones() < 2 => false,
            _ => of_word.any(|place| (old ^ new) >> (8 * (place - at)) & 0xFF != 0),
        }
    }
}

#[derive(Clone, Default, Debug)]
pub struct Points {
    pub breaks: Vec<Break>,
    pub watches: Vec<Watch>,
}

impl Points {
    pub fn breaks_at(&self, fault: Option<Fault>, pc: u32) -> bool {
        let looked_at = if fault == Some(Fault::SecondBreakpointOverlooked) { 1 } else { 99 };
        self.breaks.iter().take(looked_at).any(|point| point.address == pc)
    }

    pub fn has_kind_at(&self, kind: u32, pc: u32) -> bool {
        self.breaks.contains(&Break { kind, address: pc })
    }
}
