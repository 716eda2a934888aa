//! The tags that a session reads, found once for the rows of a table.

use super::labels::{tag_of, Labels};

/// More than twice as many as there are tags, so that one is always free.
const SLOTS: usize = 4_096;

/// Each readable tag at its own slot, or at the next one that was free; 0 where there is none.
pub struct Readable([u32; SLOTS]);

impl Readable {
    pub const NONE: Readable = Readable([0; SLOTS]);

    /// Adds the tags of the labels that are readable, by their places and records.
    #[inline(always)]
    pub fn add(&mut self, labels: &Labels, is_readable: impl Fn(usize, &[u8; 24]) -> bool) {
        let (slots, mut place) = (&mut self.0, 0);
        for records in labels.slices() {
            for record in records {
                if is_readable(place, record) {
                    let tag = tag_of(record);
                    let mut slot = slot_of(tag);
                    while slots[slot] != 0 {
                        slot = (slot + 1) % SLOTS;
                    }
                    slots[slot] = tag;
                }
                place += 1;
            }
        }
    }

    #[inline(always)]
    pub fn has(&self, tag: u32) -> bool {
        let mut slot = slot_of(tag);
        loop {
            match self.0[slot] {
                0 => return false,
                own if own == tag => return true,
                _ => slot = (slot + 1) % SLOTS,
            }
        }
    }
}

#[inline(always)]
fn slot_of(tag: u32) -> usize {
    (tag.wrapping_mul(0x9e37_79b1) >> 20) as usize
}
