//! Which of many records is damaged. All are, but some oftener: those at the ends of blocks.

use crate::builder::layout::Run;
use crate::rng::Rng;

/// The place of any record; often the last of its block, and often one of the last block.
pub fn any(run: &Run, rng: &mut Rng) -> Option<usize> {
    let any = rng.place(0, run.count)?;
    let in_block = run.shape.in_block;
    let place = match rng.index(4) {
        0 => any / in_block * in_block + in_block - 1,
        1 => (run.blocks() - 1) * in_block + rng.index(run.in_last()),
        _ => any,
    };
    Some(place.min(run.count - 1))
}

/// A place after the first of some records; often that of a block's first record, so that what
/// stands before it is in another block.
pub fn later(first: usize, count: usize, in_block: usize, rng: &mut Rng) -> Option<usize> {
    let place = rng.place(first + 1, first + count)?;
    let start = place / in_block * in_block;
    let is_at_start = start > first && rng.once_in(3);
    Some(if is_at_start { start } else { place })
}
