//! New labels for a session, around what its user may set.

use super::release::{row_label_groups, session_groups};
use super::{label_at, one_of, LABEL_AT, ROW_AT};
use crate::builder::{Label, Policy, Profile, Set, User};
use crate::ffi::SESSION;
use crate::rng::Rng;

/// What a wish is made from.
pub struct View<'a> {
    pub policy: &'a Policy,
    pub user: &'a User,
    pub session: &'a [u8; SESSION],
}

/// A session label that is allowed if the session keeps its rules: it covers the row label.
pub fn session_label(view: &View, rng: &mut Rng) -> Label {
    let View { policy, user, .. } = view;
    let row = label_at(view.session, ROW_AT);
    let reach = policy.below(user.groups.read);
    Label {
        tag: 0,
        level: between(row.level, user.levels.maximum, rng),
        compartments: row.compartments | rng.subset(user.compartments.read),
        groups: match policy.profile {
            Profile::Tree => cover(policy, row.groups, reach, rng) | rng.subset(reach),
            Profile::Release => session_groups(user, &row, rng),
        },
    }
}

/// A row label that is allowed if the session keeps its rules.
pub fn row_label(view: &View, rng: &mut Rng) -> Label {
    let View { policy, user, .. } = view;
    let session = label_at(view.session, LABEL_AT);
    let highest = session.level.min(user.levels.maximum);
    let write_groups = policy.below(session.groups) & policy.below(user.groups.write);
    Label {
        tag: 0,
        level: between(user.levels.minimum, highest, rng),
        compartments: rng.subset(session.compartments & user.compartments.write),
        groups: match policy.profile {
            Profile::Tree => rng.subset(write_groups),
            Profile::Release => row_label_groups(policy, &session, rng),
        },
    }
}

/// A level from the lowest to the highest, or the highest.
fn between(lowest: u8, highest: u8, rng: &mut Rng) -> u8 {
    rng.range(lowest.min(highest).into(), highest.into()) as u8
}

/// For each group itself or one of its ancestors, as far as they are within reach.
fn cover(policy: &Policy, groups: Set, reach: Set, rng: &mut Rng) -> Set {
    let places = (groups & policy.all_groups()).places();
    let above = places.filter_map(|group| rng.place_in(policy.with_ancestors(group) & reach));
    above.collect()
}

/// One change after which the label may be refused.
pub fn disturb(label: &mut Label, policy: &Policy, rng: &mut Rng) {
    match rng.index(8) {
        0 | 1 => label.level = rng.index(policy.levels.len()) as u8,
        2 | 3 => label.compartments |= one_of(policy.all_compartments(), rng),
        4 | 5 => label.groups |= one_of(policy.all_groups(), rng),
        6 => label.compartments = rng.subset(label.compartments),
        _ => label.groups = rng.subset(label.groups),
    }
}
