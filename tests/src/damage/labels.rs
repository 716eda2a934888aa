//! Damage to a label's rules (33 at its record).

use super::{places, Draft, Expected};
use crate::builder::layout::RecordAt;
use crate::rng::Rng;
use std::ops::Range;

fn any(draft: &Draft, rng: &mut Rng) -> Option<RecordAt> {
    let [_, labels, _] = draft.policy.runs();
    Some(labels.at(places::any(&labels, rng)?))
}

/// The place of a label that has one before it.
fn later(draft: &Draft, rng: &mut Rng) -> Option<usize> {
    let in_block = draft.edition().labels().in_block;
    places::later(0, draft.policy.labels.len(), in_block, rng)
}

pub fn tag_zero(draft: &mut Draft, rng: &mut Rng) -> Option<Expected> {
    let at = any(draft, rng)?;
    draft.break_record(at, 0, &[0; 4])
}

pub fn tag_over(draft: &mut Draft, rng: &mut Rng) -> Option<Expected> {
    let at = any(draft, rng)?;
    let tag = rng.with_ends(100_000_000, u32::MAX as usize) as u32;
    draft.break_record(at, 0, &tag.to_le_bytes())
}

pub fn tag_equal(draft: &mut Draft, rng: &mut Rng) -> Option<Expected> {
    let place = later(draft, rng)?;
    let tag = draft.policy.labels[place - 1].tag;
    draft.break_record(draft.policy.label_at(place), 0, &tag.to_le_bytes())
}

pub fn tag_lower(draft: &mut Draft, rng: &mut Rng) -> Option<Expected> {
    let place = later(draft, rng)?;
    let before = draft.policy.labels[place - 1].tag as usize;
    let tag = (before > 1).then(|| rng.range(1, before - 1))? as u32;
    draft.break_record(draft.policy.label_at(place), 0, &tag.to_le_bytes())
}

pub fn level_missing(draft: &mut Draft, rng: &mut Rng) -> Option<Expected> {
    let at = any(draft, rng)?;
    let count = draft.policy.levels.len();
    let level = rng.with_ends(count, 255);
    draft.break_record(at, 4, &[level as u8])
}

pub fn compartment_missing(draft: &mut Draft, rng: &mut Rng) -> Option<Expected> {
    let count = draft.policy.compartments.len();
    place_missing(draft, rng, 8, count..64)
}

pub fn group_missing(draft: &mut Draft, rng: &mut Rng) -> Option<Expected> {
    let count = draft.policy.groups.len();
    place_missing(draft, rng, 16, count..draft.edition().most_groups())
}

/// Adds to the set at `byte` a place that the policy lacks.
fn place_missing(
    draft: &mut Draft,
    rng: &mut Rng,
    byte: usize,
    lacking: Range<usize>,
) -> Option<Expected> {
    let at = any(draft, rng)?;
    if lacking.is_empty() {
        return None;
    }
    let place = rng.with_ends(lacking.start, lacking.end - 1);
    let byte = byte + place / 8;
    let value = draft.get(at.offset + byte) | 1 << (place % 8);
    draft.break_record(at, byte, &[value])
}

pub fn unused(draft: &mut Draft, rng: &mut Rng) -> Option<Expected> {
    let at = any(draft, rng)?;
    let byte = rng.with_ends(5, 7);
    let value = rng.nonzero();
    draft.break_record(at, byte, &[value])
}
