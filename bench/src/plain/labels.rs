//! The label records of an accepted image, by tag.

use super::{slices, Block};

#[derive(Clone, Copy)]
pub struct Labels<'a> {
    pub blocks: &'a [Block],
    pub count: usize,
}

impl<'a> Labels<'a> {
    /// All records, block by block.
    pub fn slices(&self) -> impl Iterator<Item = &'a [[u8; 24]]> {
        slices::<24, 21>(self.blocks, 0, self.count)
    }

    /// The record of a tag. Tags rise, so its block is found by the first tags of blocks, and then its record.
    pub fn with(&self, tag: u32) -> Option<&'a [u8; 24]> {
        let block = last_up_to(self.blocks, tag, |block| tag_of(&block[4..]))?;
        let records: &[[u8; 24]] = block[4..508].as_chunks().0;
        let found = last_up_to(records.get(..block[1].into())?, tag, |record| {
            tag_of(record)
        })?;
        (tag_of(found) == tag).then_some(found)
    }
}

/// Of items whose tags rise, the last one whose tag isn't above this, or the first. The range is halved.
#[inline(always)]
fn last_up_to<Item>(items: &[Item], tag: u32, tag_of: impl Fn(&Item) -> u32) -> Option<&Item> {
    let mut items = items;
    while items.len() > 1 {
        let half = items.len() / 2;
        let rest = items.len() - half;
        items = match tag_of(&items[half]) <= tag {
            true => &items[half..],
            false => &items[..rest],
        };
    }
    items.first()
}

#[inline(always)]
pub fn tag_of(record: &[u8]) -> u32 {
    u32::from_le_bytes(record[..4].try_into().unwrap())
}
