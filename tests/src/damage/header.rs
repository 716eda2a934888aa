//! Damage to the header's rules, and to the number of blocks that its counts need (31 at block 0).

use super::{Draft, Expected};
use crate::builder::layout::{Shape, BLOCK};
use crate::builder::{Component, Label, Levels, Policy, Rights, Set, User};
use crate::rng::Rng;
use std::iter;

pub fn kind(draft: &mut Draft, rng: &mut Rng) -> Option<Expected> {
    change(draft, rng, 0)
}

pub fn records(draft: &mut Draft, rng: &mut Rng) -> Option<Expected> {
    change(draft, rng, 1)
}

/// An edition that there isn't.
pub fn edition_unknown(draft: &mut Draft, rng: &mut Rng) -> Option<Expected> {
    let edition = match rng.once_in(2) {
        true => *rng.pick(&[0, 3, 255]),
        false => rng.range(3, 255) as u8,
    };
    draft.write(4, &[edition]);
    Expected::layout(0)
}

/// The other edition's number, where the header or the length is then at fault.
pub fn edition_other(draft: &mut Draft, _: &mut Rng) -> Option<Expected> {
    if fits_other(&draft.policy) {
        return None;
    }
    draft.write(4, &[draft.edition().other().number()]);
    Expected::layout(0)
}

/// Whether header and length are as in an image of the other edition: the number of groups has its own
/// place in each, so that there can be none.
fn fits_other(policy: &Policy) -> bool {
    let other = policy.clone().in_edition(policy.edition.other());
    let blocks = |policy: &Policy| policy.runs().map(|run| run.blocks());
    policy.groups.is_empty() && blocks(policy) == blocks(&other)
}

/// Edition 2: what held the number of groups in edition 1 holds one again.
pub fn old_group_count(draft: &mut Draft, rng: &mut Rng) -> Option<Expected> {
    let old = draft.edition().other().group_count();
    let count = draft.policy.groups.len() as u8;
    let value = match rng.once_in(2) && count > 0 {
        true => count,
        false => rng.nonzero(),
    };
    draft.write(old.start, &[value]);
    Expected::layout(0)
}

/// The bytes up to the check that hold nothing: byte 7 and those from 13 on, but for the number of
/// groups. Each of the first ones comes often.
pub fn unused(draft: &mut Draft, rng: &mut Rng) -> Option<Expected> {
    let groups = draft.edition().group_count();
    let bytes = iter::once(7).chain(13..=509);
    let bytes: Vec<usize> = bytes.filter(|at| !groups.contains(at)).collect();
    let at = match rng.once_in(2) {
        true => *rng.pick(&bytes[..5]),
        false => bytes[rng.with_ends(0, bytes.len() - 1)],
    };
    change(draft, rng, at)
}

fn change(draft: &mut Draft, rng: &mut Rng, at: usize) -> Option<Expected> {
    let value = rng.byte_but(draft.get(at));
    draft.write(at, &[value]);
    Expected::layout(0)
}

// Counts outside their limits, in images that fit these counts.

pub fn levels_none(draft: &mut Draft, _: &mut Rng) -> Option<Expected> {
    draft.policy.levels.clear();
    draft.policy.labels.clear();
    draft.policy.users.clear();
    rebuilt(draft)
}

pub fn levels_over(draft: &mut Draft, rng: &mut Rng) -> Option<Expected> {
    grow(&mut draft.policy.levels, rng.range(33, 40));
    rebuilt(draft)
}

pub fn compartments_over(draft: &mut Draft, rng: &mut Rng) -> Option<Expected> {
    grow(&mut draft.policy.compartments, rng.range(65, 72));
    rebuilt(draft)
}

pub fn groups_over(draft: &mut Draft, rng: &mut Rng) -> Option<Expected> {
    let most = draft.edition().most_groups();
    grow(&mut draft.policy.groups, rng.range(most + 1, most + 8));
    rebuilt(draft)
}

/// The same without the groups: the count alone is over its limit, often by what a program doesn't see
/// that looks at one byte of it.
pub fn group_count_over(draft: &mut Draft, rng: &mut Rng) -> Option<Expected> {
    let at = draft.edition().group_count();
    let most = draft.edition().most_groups();
    let (count, end) = (draft.policy.groups.len(), 1 << (8 * at.len()));
    let new = match rng.index(3) {
        0 => most + 1,
        1 if count + 256 > most && count + 256 < end => count + 256,
        _ => rng.range(most + 1, end - 1),
    };
    draft.write_number(at, new);
    Expected::layout(0)
}

pub fn users_over(draft: &mut Draft, rng: &mut Rng) -> Option<Expected> {
    let edition = draft.edition();
    let count = over(edition.most_users(), edition.users(), rng);
    draft.policy.users.resize(count, no_rights());
    for (place, user) in draft.policy.users.iter_mut().enumerate() {
        user.name = format!("U{place:02}");
    }
    rebuilt(draft)
}

pub fn labels_over(draft: &mut Draft, rng: &mut Rng) -> Option<Expected> {
    let lowest = Label {
        tag: 0,
        level: 0,
        compartments: Set::NONE,
        groups: Set::NONE,
    };
    let edition = draft.edition();
    let count = over(edition.most_labels(), edition.labels(), rng);
    draft.policy.labels.resize(count, lowest);
    for (label, tag) in draft.policy.labels.iter_mut().zip(1..) {
        label.tag = tag;
    }
    rebuilt(draft)
}

/// A count over a limit by no more than a block holds: the largest image has 127 blocks, and 128 are not
/// too long.
fn over(most: usize, shape: &Shape, rng: &mut Rng) -> usize {
    rng.range(most + 1, most + shape.in_block)
}

/// As many components as asked for, numbered from 0, with new names for the new ones.
fn grow(components: &mut Vec<Component>, count: usize) {
    let mut next = 0;
    while components.len() < count {
        let name = format!("X{next}");
        next += 1;
        if components.iter().all(|component| component.name != name) {
            components.push(Component {
                name,
                number: 0,
                parent: None,
            });
        }
    }
    for (place, component) in components.iter_mut().enumerate() {
        component.number = place as u16;
    }
}

fn no_rights() -> User {
    let levels = Levels {
        maximum: 0,
        minimum: 0,
        default: 0,
        row: 0,
    };
    User {
        name: String::new(),
        privileges: 0,
        levels,
        compartments: Rights::default(),
        groups: Rights::default(),
    }
}

fn rebuilt(draft: &mut Draft) -> Option<Expected> {
    draft.rebuild();
    Expected::layout(0)
}

// A length that does not fit the counts.

pub fn block_missing(draft: &mut Draft, _: &mut Rng) -> Option<Expected> {
    let length = draft.image.len().checked_sub(BLOCK)?;
    draft.image.truncate(length);
    Expected::layout(0)
}

pub fn block_extra(draft: &mut Draft, rng: &mut Rng) -> Option<Expected> {
    let kind = *rng.pick(&[0, 67, 76, 80, 85]);
    draft.push_block(kind);
    Expected::layout(0)
}

/// A count, within its limit or over it, that needs another number of blocks.
pub fn count_unfit(draft: &mut Draft, rng: &mut Rng) -> Option<Expected> {
    let policy = &draft.policy;
    let [levels, compartments, groups] =
        [&policy.levels, &policy.compartments, &policy.groups].map(Vec::len);
    let [components, labels, users] = policy.runs();
    let counts = [
        (5..6, levels, &components),
        (6..7, compartments, &components),
        (policy.edition.group_count(), groups, &components),
        (8..10, users.count, &users),
        (10..12, labels.count, &labels),
    ];
    let (at, count, run) = rng.pick(&counts).clone();
    let (in_block, rest) = (run.shape.in_block, run.count - count);
    let new = match rng.index(4) {
        0 => count.saturating_sub(in_block),
        1 => count + in_block,
        _ => rng.range(0, 255),
    };
    if (rest + new).div_ceil(in_block) == run.blocks() {
        return None;
    }
    draft.write_number(at, new);
    Expected::layout(0)
}
