//! Damage that 1 and 2 refuse: the image's length, a block's check, a block's place.

use super::{Draft, Expected};
use crate::builder::layout::{sums, BLOCK};
use crate::rng::Rng;

pub fn empty(draft: &mut Draft, _: &mut Rng) -> Option<Expected> {
    draft.image.clear();
    Expected::length()
}

pub fn cut(draft: &mut Draft, rng: &mut Rng) -> Option<Expected> {
    let length = draft.image.len().saturating_sub(rng.range(1, 511));
    draft.image.truncate(length);
    Expected::length()
}

pub fn extended(draft: &mut Draft, rng: &mut Rng) -> Option<Expected> {
    let length = draft.image.len() + rng.range(1, 511);
    draft.image.resize(length, 0);
    Expected::length()
}

/// Whole and sound blocks, but over 128 of them.
pub fn over_long(draft: &mut Draft, rng: &mut Rng) -> Option<Expected> {
    let blocks = rng.range(129, 140);
    while draft.blocks() < blocks {
        draft.push_block(85);
    }
    Expected::length()
}

pub fn check_a(draft: &mut Draft, rng: &mut Rng) -> Option<Expected> {
    check_byte(draft, rng, 510)
}

pub fn check_b(draft: &mut Draft, rng: &mut Rng) -> Option<Expected> {
    check_byte(draft, rng, 511)
}

fn check_byte(draft: &mut Draft, rng: &mut Rng, byte: usize) -> Option<Expected> {
    let block = any_block(draft, rng)?;
    let at = block * BLOCK + byte;
    let value = rng.byte_but(draft.get(at));
    draft.put(at, &[value]);
    Expected::unsound(block)
}

pub fn check_a_255(draft: &mut Draft, rng: &mut Rng) -> Option<Expected> {
    check_255(draft, rng, 0)
}

pub fn check_b_255(draft: &mut Draft, rng: &mut Rng) -> Option<Expected> {
    check_255(draft, rng, 1)
}

/// 255 for a sum that is 0, which is the same only mod 255. Where no block has such a sum, the
/// last byte before the check, which adds to each sum once, makes one.
fn check_255(draft: &mut Draft, rng: &mut Rng, sum: usize) -> Option<Expected> {
    let has_zero = |&block: &usize| draft.image[block * BLOCK + 510 + sum] == 0;
    let block = match (0..draft.blocks()).find(has_zero) {
        Some(block) => block,
        None => any_block(draft, rng)?,
    };
    let bytes = &draft.image[block * BLOCK..][..BLOCK];
    let missing = (255 - sums(bytes)[sum]) % 255;
    draft.write(block * BLOCK + 509, &[missing]);
    draft.put(block * BLOCK + 510 + sum, &[255]);
    Expected::unsound(block)
}

/// Another byte under an old check. 0 and 255 are the same to the sums, so they aren't exchanged.
pub fn not_mended(draft: &mut Draft, rng: &mut Rng) -> Option<Expected> {
    let block = any_block(draft, rng)?;
    let at = block * BLOCK + rng.index(510);
    let old = draft.get(at);
    let new = rng.byte_but(old);
    if old % 255 == new % 255 {
        return None;
    }
    draft.put(at, &[new]);
    Expected::unsound(block)
}

pub fn place(draft: &mut Draft, rng: &mut Rng) -> Option<Expected> {
    let block = any_block(draft, rng)?;
    let at = block * BLOCK + rng.range(2, 3);
    let value = rng.byte_but(draft.get(at));
    draft.write(at, &[value]);
    Expected::unsound(block)
}

/// Two blocks change places with all their bytes.
pub fn exchanged(draft: &mut Draft, rng: &mut Rng) -> Option<Expected> {
    let high = rng.index(draft.blocks().max(1));
    let low = rng.index(high.max(1));
    if low == high {
        return None;
    }
    let (front, back) = draft.image.split_at_mut(high * BLOCK);
    front[low * BLOCK..][..BLOCK].swap_with_slice(&mut back[..BLOCK]);
    Expected::unsound(low)
}

fn any_block(draft: &Draft, rng: &mut Rng) -> Option<usize> {
    (draft.blocks() > 0).then(|| rng.index(draft.blocks()))
}
