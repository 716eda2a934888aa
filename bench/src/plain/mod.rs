//! The calls as one would write them for speed in plain safe Rust, for images of edition 1 of the first profile. They
//! answer as the library does. An image is first looked at as a whole, by code that the compiler turns into vector
//! code; only where something is wrong the first fault is sought.
//!
//! `calls` has the shape of the C functions.

pub mod calls;
mod counts;
mod faults;
mod groups;
mod label;
mod labels;
mod look_up;
mod maps;
mod names;
mod policy;
mod print;
mod quick;
mod readable;
mod reader;
mod records;
#[cfg(test)]
mod row_tests;
mod rows;
mod sessions;
mod sums;
#[cfg(test)]
mod tests;
mod text;
mod two_labels;
mod verdicts;
mod write;

use brawnesk_tests::model::Refusal;
use counts::Counts;
use groups::Ancestors;
use sums::sums;

const BLOCK: usize = 512;
pub type Block = [u8; BLOCK];

/// The blocks, where neither 1 nor 2 refuses the image.
fn sound(image: &[u8]) -> Result<&[Block], Refusal> {
    let (blocks, rest) = image.as_chunks::<BLOCK>();
    if blocks.is_empty() || blocks.len() > 128 || !rest.is_empty() {
        return Err(Refusal::Length);
    }
    for (place, block) in blocks.iter().enumerate() {
        let stored = u16::from_le_bytes([block[2], block[3]]);
        if sums(block) != [block[510], block[511]] || usize::from(stored) != place {
            return Err(Refusal::Block(place));
        }
    }
    Ok(blocks)
}

/// The table of ancestors, if all blocks after the header keep their rules.
fn accepted(blocks: &[Block], counts: &Counts) -> Option<Ancestors> {
    let [components, labels, users] = [1, counts.first_label(), counts.first_user()];
    let label_blocks = &blocks[labels..users];
    let user_blocks = &blocks[users..];
    let are_laid_out = are_laid_out::<40, 12>(&blocks[components..labels], 67, counts.components())
        && are_laid_out::<24, 21>(label_blocks, 76, counts.labels)
        && are_laid_out::<128, 3>(user_blocks, 85, counts.users);
    if !are_laid_out
        || !quick::labels_are_fine(slices::<24, 21>(label_blocks, 0, counts.labels), counts)
    {
        return None;
    }
    let ancestors = quick::ancestors(counts, |first, count| {
        slices::<40, 12>(&blocks[1..], first, count)
    })?;
    let users = slices::<128, 3>(user_blocks, 0, counts.users);
    quick::users_are_fine(users, counts, &ancestors).then_some(ancestors)
}

/// Whether the blocks of a kind are packed: each has its kind, its count of records, and zeros after them.
fn are_laid_out<const SIZE: usize, const IN_BLOCK: usize>(
    blocks: &[Block],
    kind: u8,
    count: usize,
) -> bool {
    let Some((last, full)) = blocks.split_last() else {
        return true;
    };
    let rest = count - full.len() * IN_BLOCK;
    let is_full = |block: &Block| {
        block[..2] == [kind, IN_BLOCK as u8] && all_zero(&block[4 + IN_BLOCK * SIZE..510])
    };
    full.iter().all(is_full)
        && last[..2] == [kind, rest as u8]
        && all_zero(&last[4 + rest * SIZE..510])
}

/// So many records from a place on, block by block.
fn slices<const SIZE: usize, const IN_BLOCK: usize>(
    blocks: &[Block],
    first: usize,
    count: usize,
) -> impl Iterator<Item = &[[u8; SIZE]]> {
    let (mut at, end) = (first, first + count);
    std::iter::from_fn(move || {
        let (block, place) = (at / IN_BLOCK, at % IN_BLOCK);
        let here = (IN_BLOCK - place).min(end - at);
        at += here;
        let records: &[[u8; SIZE]] = blocks.get(block)?[4..].as_chunks().0;
        Some(&records[place..][..here]).filter(|here| !here.is_empty())
    })
}

/// Not by `all`, which looks at one byte after another.
pub fn all_zero(bytes: &[u8]) -> bool {
    bytes.iter().fold(0, |seen, byte| seen | byte) == 0
}
