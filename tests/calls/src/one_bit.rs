//! Images one bit from valid, counted by the field that the bit lies in.

use crate::dice::Dice;
use crate::fields::*;
use crate::judge::Judge;
use crate::report::{at_least, different};
use crate::valid::valid;

/// Each bit of the image changed alone, in images that differ each time.
pub struct OneBitCounts {
    kept: [u64; FIELDS.len()],
    broke: [u64; FIELDS.len()],
    bits_met: Vec<bool>,
}

impl OneBitCounts {
    pub fn taken(dice: &mut Dice, judge: &mut Judge) -> OneBitCounts {
        let mut counts = OneBitCounts {
            kept: [0; FIELDS.len()],
            broke: [0; FIELDS.len()],
            bits_met: vec![false; IMAGE_BITS],
        };
        for _ in 0..100 {
            for bit in 0..IMAGE_BITS {
                let case = valid(dice);
                let mut bytes = case.bytes();
                bytes[bit / 8] ^= 1 << (bit % 8);
                let kept = judge.verdict(&bytes, case.paper(), case.journal(), None, &|| {
                    format!("valid but for bit {} of {}", bit % 8, byte_name(bit / 8))
                });
                counts.bits_met[bit] = true;
                let field = field_of(bit / 8);
                if kept {
                    counts.kept[field] += 1;
                } else {
                    counts.broke[field] += 1;
                }
            }
        }
        counts
    }

    /// Prints the counts by field; each has to be as the rules make it.
    pub fn report(&self) {
        let met = self.bits_met.iter().filter(|met| **met).count() as u64;
        println!("rules: one bit from valid, by field");
        at_least(format!("bits changed, of {IMAGE_BITS}"), met, IMAGE_BITS as u64);
        for (place, field) in FIELDS.iter().enumerate() {
            let (kept, broke) = (self.kept[place], self.broke[place]);
            println!("  {:<20} kept {kept:>6}  broke {broke:>6}", field.name);
            let right = match field.one_bit {
                OneBit::NeverBreaks => kept > 0 && broke == 0,
                OneBit::AlwaysBreaks => kept == 0 && broke > 0,
                OneBit::Either => kept > 0 && broke > 0,
            };
            if !right {
                let line = format!("no rules make these counts for {}", field.name);
                different("rules", &[line]);
            }
        }
    }
}
