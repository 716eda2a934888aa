//! Damage to a component's rules (32 at its record).

use super::{places, Draft, Expected};
use crate::builder::layout::{RecordAt, COMPONENTS};
use crate::builder::{Edition, Policy, Rights, Set};
use crate::rng::Rng;

pub fn any(draft: &Draft, rng: &mut Rng) -> Option<RecordAt> {
    let [components, ..] = draft.policy.runs();
    Some(components.at(places::any(&components, rng)?))
}

/// An earlier component, the one before or any, and a later one of its class.
pub fn pair(policy: &Policy, rng: &mut Rng, next: bool) -> Option<(RecordAt, RecordAt)> {
    let (levels, compartments) = (policy.levels.len(), policy.compartments.len());
    let (first, count) = *rng.pick(&[
        (0, levels),
        (levels, compartments),
        (levels + compartments, policy.groups.len()),
    ]);
    let later = places::later(first, count, COMPONENTS.in_block, rng)?;
    let earlier = if next {
        later - 1
    } else {
        rng.range(first, later - 1)
    };
    Some((policy.component_at(earlier), policy.component_at(later)))
}

pub fn class(draft: &mut Draft, rng: &mut Rng) -> Option<Expected> {
    let at = any(draft, rng)?;
    let old = draft.get(at.offset);
    let value = *rng.pick(&[0, 1, 2, 3, 4, 255]);
    let value = if value == old {
        rng.byte_but(old)
    } else {
        value
    };
    draft.break_record(at, 0, &[value])
}

/// Two components of different classes change places.
pub fn class_order(draft: &mut Draft, rng: &mut Rng) -> Option<Expected> {
    let count = draft.policy.components();
    let later = rng.index(count.max(1));
    let earlier = rng.index(later.max(1));
    let [low, high] = [earlier, later].map(|place| draft.policy.component_at(place));
    let first = draft.image.get(low.offset..low.offset + 40)?.to_vec();
    let second = draft.image.get(high.offset..high.offset + 40)?.to_vec();
    if first[0] == second[0] {
        return None;
    }
    draft.write(high.offset, &first);
    draft.break_record(low, 0, &second)
}

/// The header counts one level or compartment less and one of the next class more: the record
/// whose class isn't the one that the counts put there is at fault itself.
pub fn class_by_header(draft: &mut Draft, rng: &mut Rng) -> Option<Expected> {
    let policy = &draft.policy;
    let counts = [
        policy.levels.len(),
        policy.compartments.len(),
        policy.groups.len(),
    ];
    let class = rng.index(2);
    let least = 1 - class;
    let most = [64, policy.edition.most_groups()][class];
    if counts[class] <= least || counts[class + 1] == most {
        return None;
    }
    let place: usize = counts[..=class].iter().sum();
    let at = policy.component_at(place - 1);
    let bytes = [5..6, 6..7, policy.edition.group_count()];
    draft.write_number(bytes[class].clone(), counts[class] - 1);
    draft.write_number(bytes[class + 1].clone(), counts[class + 1] + 1);
    Expected::record(at)
}

pub fn name_repeated(draft: &mut Draft, rng: &mut Rng) -> Option<Expected> {
    let (earlier, later) = pair(&draft.policy, rng, false)?;
    let name = draft
        .image
        .get(earlier.offset + 1..earlier.offset + 32)?
        .to_vec();
    draft.break_record(later, 1, &name)
}

pub fn number_over(draft: &mut Draft, rng: &mut Rng) -> Option<Expected> {
    let at = any(draft, rng)?;
    let number = rng.with_ends(10_000, 65_535);
    draft.break_record(at, 32, &(number as u16).to_le_bytes())
}

pub fn number_equal(draft: &mut Draft, rng: &mut Rng) -> Option<Expected> {
    let (earlier, later) = pair(&draft.policy, rng, true)?;
    let number = [32, 33].map(|byte| draft.get(earlier.offset + byte));
    draft.break_record(later, 32, &number)
}

pub fn number_lower(draft: &mut Draft, rng: &mut Rng) -> Option<Expected> {
    let (earlier, later) = pair(&draft.policy, rng, true)?;
    let number = u16::from_le_bytes([32, 33].map(|byte| draft.get(earlier.offset + byte)));
    let lower = rng.place(0, usize::from(number))?;
    draft.break_record(later, 32, &(lower as u16).to_le_bytes())
}

pub fn level_parent(draft: &mut Draft, rng: &mut Rng) -> Option<Expected> {
    let place = rng.place(0, draft.policy.levels.len())?;
    some_parent(draft, rng, place)
}

pub fn compartment_parent(draft: &mut Draft, rng: &mut Rng) -> Option<Expected> {
    let place = rng.place(0, draft.policy.compartments.len())?;
    some_parent(draft, rng, draft.policy.levels.len() + place)
}

fn some_parent(draft: &mut Draft, rng: &mut Rng, place: usize) -> Option<Expected> {
    let parent = parent_from(0, draft.edition(), rng);
    draft.break_parent(draft.policy.component_at(place), parent)
}

/// A number from `low` on that isn't the one for no parent; often one next to a limit.
pub fn parent_from(low: usize, edition: Edition, rng: &mut Rng) -> usize {
    let high = edition.no_parent() - 1;
    let limit = *rng.pick(&[63, 64, 254, 255, 256, 257]);
    match rng.once_in(4) && (low..=high).contains(&limit) {
        true => limit,
        false => rng.with_ends(low, high),
    }
}

/// What stands for no parent in the other edition. In edition 2 it may be a group's place.
pub fn parent_of_other_edition(draft: &mut Draft, rng: &mut Rng) -> Option<Expected> {
    let at = any(draft, rng)?;
    let none = draft.edition().other().no_parent();
    let is_group = draft.get(at.offset) == 3;
    if is_group && draft.edition() == Edition::Two && none < draft.policy.groups.len() {
        return None;
    }
    draft.write_number(at.offset + 34..at.offset + 36, none);
    Expected::record(at)
}

/// Edition 2: the second byte of a parent, which is 0 with a parent and 255 without, is another. With the
/// first it may then name a group, or none.
pub fn parent_high_byte(draft: &mut Draft, rng: &mut Rng) -> Option<Expected> {
    let at = any(draft, rng)?;
    let [low, high] = [34, 35].map(|byte| draft.get(at.offset + byte));
    let value = rng.byte_but(high);
    let parent = usize::from(u16::from_le_bytes([low, value]));
    let is_group = draft.get(at.offset) == 3;
    if is_group && parent < draft.policy.groups.len() || parent == draft.edition().no_parent() {
        return None;
    }
    draft.break_record(at, 35, &[value])
}

/// The other edition's number in an image that the other edition would lay out in as many blocks. The
/// first level hasn't the other edition's number for no parent.
pub fn edition_other_fits(draft: &mut Draft, _: &mut Rng) -> Option<Expected> {
    let policy = &mut draft.policy;
    policy.groups.clear();
    policy.labels.truncate(10);
    policy.users.truncate(2);
    for label in &mut policy.labels {
        label.groups = Set::NONE;
    }
    for user in &mut policy.users {
        user.groups = Rights::default();
    }
    draft.rebuild();
    draft.write(4, &[draft.edition().other().number()]);
    Expected::record(draft.policy.component_at(0))
}

pub fn group_parent_missing(draft: &mut Draft, rng: &mut Rng) -> Option<Expected> {
    let count = draft.policy.groups.len();
    let group = rng.place(0, count)?;
    let parent = parent_from(count, draft.edition(), rng);
    draft.break_parent(draft.policy.group_at(group), parent)
}

pub fn unused(draft: &mut Draft, rng: &mut Rng) -> Option<Expected> {
    let at = any(draft, rng)?;
    let byte = rng.with_ends(draft.edition().parent().end, 39);
    let value = rng.nonzero();
    draft.break_record(at, byte, &[value])
}
