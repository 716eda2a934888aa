//! Damage to what only the release profile has or forbids, and to the profile itself.

use super::users::{any_place, rewrite, with_one};
use super::{Draft, Expected};
use crate::builder::Set;
use crate::rng::Rng;

/// The byte of the header that holds the profile.
const PROFILE: usize = 12;

/// A profile that there isn't (31).
pub fn profile_unknown(draft: &mut Draft, rng: &mut Rng) -> Option<Expected> {
    let profile = match rng.once_in(2) {
        true => *rng.pick(&[2, 3, 128, 254, 255]),
        false => rng.range(2, 255) as u8,
    };
    draft.write(PROFILE, &[profile]);
    Expected::layout(0)
}

/// A tree becomes a release image: the lowest group that has a parent is told (32).
pub fn tree_told_release(draft: &mut Draft, _: &mut Rng) -> Option<Expected> {
    let mut groups = draft.policy.groups.iter();
    let group = groups.position(|group| group.parent.is_some())?;
    draft.write(PROFILE, &[1]);
    Expected::record(draft.policy.group_at(group))
}

/// A group has a group as its parent: another one, or itself (32).
pub fn group_parent(draft: &mut Draft, rng: &mut Rng) -> Option<Expected> {
    let groups = draft.policy.groups.len();
    let group = rng.place(0, groups)?;
    let parent = match rng.index(4) {
        0 => group,
        1 => group.saturating_sub(1),
        _ => rng.with_ends(0, groups - 1),
    };
    draft.break_parent(draft.policy.group_at(group), parent)
}

/// The rules of a user's groups that come last, by which groups are lacking in which set.
#[derive(Clone, Copy)]
pub enum Containing {
    DefaultHasRead,
    RowHasDefault,
    WriteHasRead,
    ReadHasWrite,
}

impl Containing {
    pub const ALL: [Containing; 4] = [
        Containing::DefaultHasRead,
        Containing::RowHasDefault,
        Containing::WriteHasRead,
        Containing::ReadHasWrite,
    ];

    /// Which of read, write, default and row have a group, where only this rule is broken.
    fn broken(self, one: Set) -> [Set; 4] {
        let none = Set::NONE;
        match self {
            Containing::DefaultHasRead => [one, one, none, none],
            Containing::RowHasDefault => [none, none, one, none],
            Containing::WriteHasRead => [one, none, one, one],
            Containing::ReadHasWrite => [none, one, none, none],
        }
    }
}

/// Breaks a rule that comes last for any user (34).
pub fn groups(draft: &mut Draft, rng: &mut Rng, rule: Containing) -> Option<Expected> {
    let place = any_place(draft, rng)?;
    groups_of(draft, rng, rule, place)
}

/// Puts one group into some of a user's sets, and takes it from the others.
pub fn groups_of(
    draft: &mut Draft,
    rng: &mut Rng,
    rule: Containing,
    place: usize,
) -> Option<Expected> {
    let count = draft.policy.groups.len().min(draft.edition().most_groups());
    let one = Set::of(rng.place(0, count)?);
    with_one(&mut draft.policy.users[place].groups, one, rule.broken(one));
    rewrite(draft, place)?;
    Expected::below(draft.policy.user_at(place))
}

/// A release image becomes a tree without parents, by which a user's four sets of groups would have to be one:
/// the lowest user whose row groups are more than the read groups is told (34).
pub fn release_told_tree(draft: &mut Draft, _: &mut Rng) -> Option<Expected> {
    let mut users = draft.policy.users.iter();
    let user = users.position(|user| user.groups.row != user.groups.read)?;
    draft.write(PROFILE, &[0]);
    Expected::below(draft.policy.user_at(user))
}
