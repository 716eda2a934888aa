//! Ways to break a session: for each part of the rules behind refusal 19 a change that breaks it.

use super::release::break_groups;
use super::{label_at, set_bit, LABEL_AT, ROW_AT};
use crate::builder::{Edition, Policy, Set};
use crate::ffi::SESSION;
use crate::rng::Rng;

#[derive(Clone, Copy, Debug, PartialEq, Eq)]
pub enum Break {
    /// The user's place is past the users.
    UserPast,
    /// The signed-on user is another.
    SignedOn,
    LevelOver,
    LevelUnder,
    /// A compartment outside the user's read set, also one that the policy lacks.
    Compartment,
    /// A group outside below(read), also one that the policy lacks; in the release profile a read group less.
    Group,
    /// A group of the session label past all that there are; in a tree of edition 1 in bytes 24..47.
    GroupPast,
    /// The row label's level over the session's.
    RowLevelOver,
    /// The row label's level under the minimum.
    RowLevelUnder,
    /// A compartment of the row label outside the write compartments.
    RowCompartment,
    /// A group of the row label outside the write groups; in the release profile the row label loses a group of
    /// the session label.
    RowGroup,
    /// A group of the row label past all that there are; in a tree of edition 1 in bytes 24..47.
    RowGroupPast,
    /// The session label loses a compartment that the row label has.
    CompartmentTaken,
    /// The session label loses all that a group of the row label is below; in the release profile it wins a
    /// group that the row label lacks.
    GroupTaken,
}

impl Break {
    pub const ALL: &'static [Break] = &[
        Break::UserPast,
        Break::SignedOn,
        Break::LevelOver,
        Break::LevelUnder,
        Break::Compartment,
        Break::Group,
        Break::GroupPast,
        Break::RowLevelOver,
        Break::RowLevelUnder,
        Break::RowCompartment,
        Break::RowGroup,
        Break::RowGroupPast,
        Break::CompartmentTaken,
        Break::GroupTaken,
    ];

    /// Breaks a session that kept its rules; gives nothing, and changes nothing, where the session or
    /// its user lacks what it takes.
    pub fn apply(self, policy: &Policy, session: &mut [u8; SESSION], rng: &mut Rng) -> Option<()> {
        let users = policy.users.len();
        match self {
            Break::UserPast => session[..2].fill(rng.with_ends(users, 255) as u8),
            Break::SignedOn => session[1] = other(session[0], users, rng),
            Break::LevelOver | Break::LevelUnder | Break::RowLevelOver | Break::RowLevelUnder => {
                self.break_level(policy, session, rng)?
            }
            _ if self.is_of_groups() && policy.variant().is_release() => {
                break_groups(self, policy, session, rng)?
            }
            Break::GroupPast => set_bit(session, LABEL_AT + 16, group_past(policy, rng)?),
            Break::RowGroupPast => set_bit(session, ROW_AT + 16, group_past(policy, rng)?),
            Break::CompartmentTaken | Break::GroupTaken => self.take(policy, session, rng)?,
            _ => self.add(policy, session, rng)?,
        }
        Some(())
    }

    fn is_of_groups(self) -> bool {
        matches!(
            self,
            Break::Group
                | Break::GroupPast
                | Break::RowGroup
                | Break::RowGroupPast
                | Break::GroupTaken
        )
    }

    fn break_level(
        self,
        policy: &Policy,
        session: &mut [u8; SESSION],
        rng: &mut Rng,
    ) -> Option<()> {
        let levels = &policy.users.get(usize::from(session[0]))?.levels;
        let (maximum, minimum) = (usize::from(levels.maximum), usize::from(levels.minimum));
        let session_level = usize::from(session[LABEL_AT + 4]);
        let (at, level) = match self {
            Break::LevelOver => (LABEL_AT, rng.with_ends(maximum + 1, 255)),
            Break::LevelUnder => (LABEL_AT, rng.place(0, minimum)?),
            Break::RowLevelOver => (ROW_AT, rng.with_ends(session_level + 1, 255)),
            _ => (ROW_AT, rng.place(0, minimum)?),
        };
        session[at + 4] = level as u8;
        Some(())
    }

    /// Adds a place to a set of one of the labels: any that is not allowed there, or one that only one
    /// of two sets allows.
    fn add(self, policy: &Policy, session: &mut [u8; SESSION], rng: &mut Rng) -> Option<()> {
        let user = policy.users.get(usize::from(session[0]))?;
        let label = label_at(session, LABEL_AT);
        let (below, below_write) = (policy.below(label.groups), policy.below(user.groups.write));
        let [compartments, groups] = [64, policy.edition.most_groups()].map(Set::first);
        let (at, places) = match self {
            Break::Compartment => (LABEL_AT + 8, compartments & !user.compartments.read),
            Break::Group => (LABEL_AT + 16, groups & !policy.below(user.groups.read)),
            Break::RowCompartment => {
                let outside = outside(label.compartments, user.compartments.write, rng);
                (ROW_AT + 8, compartments & outside)
            }
            _ => (ROW_AT + 16, groups & outside(below, below_write, rng)),
        };
        let place = rng.place_in(places)?;
        set_bit(session, at, place);
        Some(())
    }

    /// Takes from the session label what a place of the row label needs.
    fn take(self, policy: &Policy, session: &mut [u8; SESSION], rng: &mut Rng) -> Option<()> {
        let row = label_at(session, ROW_AT);
        let mut label = label_at(session, LABEL_AT);
        if self == Break::CompartmentTaken {
            label.compartments &= !Set::of(rng.place_in(row.compartments)?);
        } else {
            label.groups &= !policy.with_ancestors(rng.place_in(row.groups)?);
        }
        session[LABEL_AT..ROW_AT].copy_from_slice(&label.to_bytes());
        Some(())
    }
}

/// A group that the policy lacks: for a tree of edition 1 one that no policy of it has.
pub fn group_past(policy: &Policy, rng: &mut Rng) -> Option<usize> {
    let first = match policy.variant() == Edition::One.tree() {
        true => policy.edition.most_groups(),
        false => policy.groups.len(),
    };
    (first < Set::PLACES).then(|| rng.with_ends(first, Set::PLACES - 1))
}

/// What is not in both sets: what only one of them has, or all.
fn outside(one: Set, other: Set, rng: &mut Rng) -> Set {
    *rng.pick(&[one & !other, other & !one, !(one & other)])
}

/// A byte that isn't the user's place, often another user's.
fn other(user: u8, users: usize, rng: &mut Rng) -> u8 {
    let other = rng.index(users) as u8;
    if other == user {
        rng.byte_but(user)
    } else {
        other
    }
}
