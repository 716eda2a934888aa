//! Policies for walks: users with and without privileges, and rows' labels around their rights.

use super::release;
use crate::builder::{random, Label, Policy, Profile, Rights, Set, Sizes, User, Variant};
use crate::rng::Rng;

const READ: u8 = 1;
const FULL: u8 = 2;

/// Mostly small, so that sets meet often; now and then up to all limits.
pub fn policy(variant: impl Into<Variant>, rng: &mut Rng) -> Policy {
    let variant = variant.into();
    let mut sizes = match rng.index(100) {
        0 => Sizes::any(variant, rng),
        1..=8 => Sizes::medium(variant, rng),
        _ => Sizes::small(variant, rng),
    };
    let most = variant.edition.most_labels();
    sizes.labels += rng.range(0, 12).min(most - sizes.labels);
    if sizes.users == 0 && !rng.once_in(6) {
        sizes.users = rng.range(1, 3);
    }
    let mut policy = random(sizes, rng);
    let all = policy.all_compartments();
    for user in &mut policy.users {
        if rng.once_in(2) {
            user.privileges &= !(READ | FULL);
        }
        if rng.once_in(2) {
            widen(&mut user.compartments, all, rng);
        }
    }
    for place in 0..policy.labels.len() {
        if let Some(user) = rng.place(0, policy.users.len()) {
            let tag = policy.labels[place].tag;
            policy.labels[place] = row(tag, &policy, &policy.users[user], rng);
        }
    }
    policy
}

/// All compartments to read, all in the default label, and more of them to write.
fn widen(rights: &mut Rights, all: Set, rng: &mut Rng) {
    rights.read = all;
    rights.default = all;
    rights.write |= rng.subset(all);
}

/// Whether verdicts on all rows go by labels for a user of these privileges.
pub fn is_ruled(privileges: u8) -> bool {
    privileges & (READ | FULL) == 0
}

/// A row's label that is often inside a user's rights, and often outside in one place.
fn row(tag: u32, policy: &Policy, user: &User, rng: &mut Rng) -> Label {
    let level = match rng.index(4) {
        0 => rng.index(policy.levels.len()),
        1 => rng.range(0, user.levels.minimum.into()),
        _ => rng.range(user.levels.minimum.into(), user.levels.default.into()),
    };
    let own = &user.compartments;
    let mut compartments = match rng.index(6) {
        0 => Set::NONE,
        1 => rng.subset(own.read),
        2 => one_of(own.default & !own.write, rng),
        3 => rng.subset(own.default),
        4 => one_of(own.default & own.write, rng),
        _ => rng.subset(own.default & own.write),
    };
    if rng.once_in(6) {
        compartments |= one_of(policy.all_compartments(), rng);
    }
    Label {
        tag,
        level: level as u8,
        compartments,
        groups: match policy.profile {
            Profile::Tree => row_groups(policy, user, rng),
            Profile::Release => release::row_groups(policy, user, rng),
        },
    }
}

/// None, some that the user reaches, or one group and few others: one reached group is enough.
fn row_groups(policy: &Policy, user: &User, rng: &mut Rng) -> Set {
    let own = &user.groups;
    let (default, write) = (policy.below(own.default), policy.below(own.write));
    match rng.index(8) {
        0 | 1 => Set::NONE,
        2 => rng.subset(policy.all_groups()),
        3 => one_of(policy.below(own.read), rng),
        4 => one_of(default & !write, rng),
        5 => one_of(default, rng),
        6 => one_of(default & write, rng) | one_of(policy.all_groups(), rng),
        _ => one_of(default & write, rng),
    }
}

/// The set of one place of a set, or none.
pub fn one_of(set: Set, rng: &mut Rng) -> Set {
    rng.place_in(set).map_or(Set::NONE, Set::of)
}
