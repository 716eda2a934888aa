//! Random well-formed policies, up to all limits of an edition.

use super::{Component, Label, Levels, Policy, Profile, Rights, Set};
use super::{Sizes, Tree, User, Variant};
use crate::rng::Rng;
use std::collections::BTreeSet;

/// From how many groups on a user often has few of them, so that not all groups lie below these.
const MANY_GROUPS: usize = 64;

/// The largest image's policy.
pub fn full(variant: impl Into<Variant>) -> Policy {
    random(Sizes::full(variant), &mut Rng::new(1))
}

pub fn random(sizes: Sizes, rng: &mut Rng) -> Policy {
    grown(sizes, None, rng)
}

/// The same with parents of that form, which the release profile has not.
pub fn random_with(tree: Tree, sizes: Sizes, rng: &mut Rng) -> Policy {
    assert_eq!(sizes.variant.profile, Profile::Tree);
    grown(sizes, Some(tree), rng)
}

fn grown(sizes: Sizes, tree: Option<Tree>, rng: &mut Rng) -> Policy {
    let Variant { edition, profile } = sizes.variant;
    let mut policy = Policy {
        edition,
        profile,
        levels: components(sizes.levels, &[], rng),
        compartments: Vec::new(),
        groups: Vec::new(),
        labels: Vec::new(),
        users: Vec::new(),
    };
    policy.compartments = components(sizes.compartments, &policy.levels, rng);
    policy.groups = components(sizes.groups, &policy.compartments, rng);
    if profile == Profile::Tree {
        let parents = Tree::parents(tree, sizes.groups, rng);
        for (group, parent) in policy.groups.iter_mut().zip(parents) {
            group.parent = parent;
        }
    }
    let tags = rising(sizes.labels, 1, 99_999_999, rng);
    policy.labels = tags
        .into_iter()
        .map(|tag| label(tag as u32, &policy, rng))
        .collect();
    let names: BTreeSet<String> = names(sizes.users, &[], rng).into_iter().collect();
    policy.users = names
        .into_iter()
        .map(|name| user(name, &policy, rng))
        .collect();
    policy
}

/// Components of one class. Some bear a name of another class, which is allowed.
fn components(count: usize, other: &[Component], rng: &mut Rng) -> Vec<Component> {
    let numbers = rising(count, 0, 9_999, rng);
    let names = names(count, other, rng);
    let component = |(name, number)| Component {
        name,
        number: number as u16,
        parent: None,
    };
    names.into_iter().zip(numbers).map(component).collect()
}

/// Names that differ; some begin another of them, and some are of `other`.
fn names(count: usize, other: &[Component], rng: &mut Rng) -> Vec<String> {
    let mut names: Vec<String> = Vec::new();
    while names.len() < count {
        let name = match rng.index(6) {
            0 if !other.is_empty() => rng.pick(other).name.clone(),
            1 if !names.is_empty() => format!("{}{}", rng.pick(&names), letters(1, rng)),
            2 => letters(rng.range(1, 3), rng),
            3 => letters(rng.range(28, 30), rng),
            _ => letters(rng.range(1, 30), rng),
        };
        if name.len() <= 30 && !names.contains(&name) {
            names.push(name);
        }
    }
    names
}

/// A name of that length.
pub fn letters(length: usize, rng: &mut Rng) -> String {
    let alphabet = b"ABCDEFGHIJKLMNOPQRSTUVWXYZ0123456789_";
    (0..length)
        .map(|_| char::from(*rng.pick(alphabet)))
        .collect()
}

/// Numbers from `low` to `high` that rise strictly: one after another, or wide apart and often
/// with the ends among them.
fn rising(count: usize, low: usize, high: usize, rng: &mut Rng) -> Vec<usize> {
    if rng.once_in(4) {
        let first = rng.range(low, high + 1 - count);
        return (first..first + count).collect();
    }
    let mut numbers = BTreeSet::new();
    for end in [low, high] {
        if numbers.len() < count && rng.once_in(2) {
            numbers.insert(end);
        }
    }
    while numbers.len() < count {
        numbers.insert(rng.range(low, high));
    }
    numbers.into_iter().collect()
}

fn label(tag: u32, policy: &Policy, rng: &mut Rng) -> Label {
    Label {
        tag,
        level: rng.index(policy.levels.len()) as u8,
        compartments: rng.subset(policy.all_compartments()),
        groups: rng.subset(policy.all_groups()),
    }
}

fn user(name: String, policy: &Policy, rng: &mut Rng) -> User {
    let mut levels = [0; 4].map(|_| rng.index(policy.levels.len()) as u8);
    levels.sort();
    let [minimum, row, default, maximum] = levels;
    User {
        name,
        privileges: rng.index(128) as u8 & policy.variant().privileges(),
        levels: Levels {
            maximum,
            minimum,
            default,
            row,
        },
        compartments: rights(policy.all_compartments(), |set| set, rng),
        groups: match policy.profile {
            Profile::Tree => rights(policy.all_groups(), |set| policy.below(set), rng),
            Profile::Release => released(policy.all_groups(), rng),
        },
    }
}

/// Write and default lie in what read reaches, row in what both default and write reach.
fn rights(all: Set, reach: impl Fn(Set) -> Set, rng: &mut Rng) -> Rights {
    let read = match rng.once_in(2) {
        true if all.count() > MANY_GROUPS => rng.few(all),
        true => rng.half(all),
        false => rng.subset(all),
    };
    let write = rng.subset(reach(read));
    let default = rng.subset(reach(read));
    let row = rng.subset(reach(default) & reach(write));
    Rights {
        read,
        write,
        default,
        row,
    }
}

/// Groups in the release profile: default contains read, row contains default, and write is read. Often there
/// are few, so that all of them may be among a row's.
fn released(all: Set, rng: &mut Rng) -> Rights {
    let read = match rng.index(4) {
        0 => Set::NONE,
        1 | 2 => rng.few(all),
        _ => rng.subset(all),
    };
    let default = match rng.index(4) {
        0 => read | rng.subset(all),
        1 => read | rng.few(all),
        _ => read,
    };
    let row = match rng.index(4) {
        0 => default,
        1 => default | rng.few(all),
        _ => default | rng.subset(all),
    };
    Rights {
        read,
        write: read,
        default,
        row,
    }
}
