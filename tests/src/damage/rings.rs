//! Damage to the ends of parents (35 at the lowest group whose parents never end).

use super::{Draft, Expected};
use crate::builder::Set;
use crate::rng::Rng;

/// How many groups are low ones: as many as edition 1 may have.
const LOW: usize = 64;

pub fn of_one(draft: &mut Draft, rng: &mut Rng) -> Option<Expected> {
    of(draft, rng, 1)
}

pub fn of_two(draft: &mut Draft, rng: &mut Rng) -> Option<Expected> {
    of(draft, rng, 2)
}

pub fn long(draft: &mut Draft, rng: &mut Rng) -> Option<Expected> {
    let count = draft.policy.groups.len();
    let length = if rng.once_in(3) {
        count
    } else {
        rng.range(3, count.max(3))
    };
    of(draft, rng, length.max(3))
}

/// A ring of any length.
pub fn any(draft: &mut Draft, rng: &mut Rng) -> Option<Expected> {
    let length = rng.place(0, groups(draft))?;
    of(draft, rng, length + 1)
}

/// A ring of so many groups.
fn of(draft: &mut Draft, rng: &mut Rng, length: usize) -> Option<Expected> {
    let order = shuffled(draft, rng);
    let ring = order.get(..length)?;
    close(draft, ring);
    lowest_under(draft, ring)
}

/// A group whose parent stands on a ring of higher groups, so that the lowest group whose parents
/// never end doesn't stand on the ring.
pub fn lower_leads_in(draft: &mut Draft, rng: &mut Rng) -> Option<Expected> {
    let count = groups(draft);
    let lower = rng.place(0, count.saturating_sub(1))?;
    let mut higher: Vec<usize> = (lower + 1..count).collect();
    rng.shuffle(&mut higher);
    let ring = &higher[..rng.range(1, higher.len())];
    close(draft, ring);
    set_parent(draft, lower, *rng.pick(ring));
    lowest_under(draft, ring)
}

/// Two rings that share no group. The lower one's group is told.
pub fn two(draft: &mut Draft, rng: &mut Rng) -> Option<Expected> {
    let order = shuffled(draft, rng);
    let first = rng.place(1, order.len())?;
    let second = rng.range(1, order.len() - first);
    let (one, rest) = order.split_at(first);
    close(draft, one);
    close(draft, &rest[..second]);
    lowest_under(draft, &order[..first + second])
}

/// How many groups there are; earlier damage may have added some past the limit.
fn groups(draft: &Draft) -> usize {
    draft.policy.groups.len().min(draft.edition().most_groups())
}

/// All groups in any order; where there are many, often only such that no low one is under them, so that
/// the lowest whose parents never end is no low one.
fn shuffled(draft: &Draft, rng: &mut Rng) -> Vec<usize> {
    let mut order: Vec<usize> = (0..groups(draft)).collect();
    if order.len() > LOW && !rng.once_in(4) {
        let over = |group: usize| draft.policy.with_ancestors(group).places();
        let over_low: Set = (0..LOW).flat_map(over).collect();
        order.retain(|&group| !over_low.has(group));
    }
    rng.shuffle(&mut order);
    order
}

/// Gives the groups each other as parents, one after the other and the last the first.
fn close(draft: &mut Draft, ring: &[usize]) {
    let parents = ring.iter().cycle().skip(1);
    for (&group, &parent) in ring.iter().zip(parents) {
        set_parent(draft, group, parent);
    }
}

fn set_parent(draft: &mut Draft, group: usize, parent: usize) {
    draft.policy.groups[group].parent = Some(parent as u16);
    draft.write_parent(draft.policy.group_at(group), parent);
}

/// A walk from the groups of a ring never ends, nor does one from any group under them.
fn lowest_under(draft: &Draft, ring: &[usize]) -> Option<Expected> {
    let endless = draft.policy.below(ring.iter().copied().collect());
    Expected::ring(endless.places().next()?)
}
