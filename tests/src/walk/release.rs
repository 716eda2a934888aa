//! Groups in the release profile: of rows around a user's rights, of new labels, and of broken sessions.

use super::breaks::{group_past, Break};
use super::{label_at, one_of, LABEL_AT, ROW_AT};
use crate::builder::{Label, Policy, Set, User};
use crate::ffi::SESSION;
use crate::rng::Rng;

/// The groups of a row: often all that the user's session opens with or that the user reads, alone, with others
/// or without one of them; at times any, all that there are, or none.
pub fn row_groups(policy: &Policy, user: &User, rng: &mut Rng) -> Set {
    let (own, all) = (&user.groups, policy.all_groups());
    match rng.index(10) {
        0 => Set::NONE,
        1 => all,
        2 => rng.subset(all),
        3 => own.read | rng.subset(all),
        4 => own.default,
        5 | 6 => own.default | one_of(all, rng),
        7 => own.default & !one_of(own.default, rng) | rng.subset(all & !own.default),
        8 => own.row & !one_of(own.read, rng),
        _ => own.row | rng.subset(all),
    }
}

/// Groups of a session label: all that the user reads, and of others those that the row label has.
pub fn session_groups(user: &User, row: &Label, rng: &mut Rng) -> Set {
    user.groups.read | rng.subset(row.groups)
}

/// Groups of a row label: all of the session's, and others.
pub fn row_label_groups(policy: &Policy, session: &Label, rng: &mut Rng) -> Set {
    session.groups | rng.subset(policy.all_groups())
}

/// Breaks the groups of a session that kept its rules; gives nothing, and changes nothing, where the session,
/// its user or the policy lacks what it takes.
pub fn break_groups(
    way: Break,
    policy: &Policy,
    session: &mut [u8; SESSION],
    rng: &mut Rng,
) -> Option<()> {
    let user = policy.users.get(usize::from(session[0]))?;
    let [mut label, mut row] = [LABEL_AT, ROW_AT].map(|at| label_at(session, at));
    match way {
        Break::Group => label.groups &= !Set::of(rng.place_in(user.groups.read)?),
        Break::GroupPast => {
            let past = Set::of(group_past(policy, rng)?);
            label.groups |= past;
            // Otherwise the row label lacks it, which is another fault.
            if rng.once_in(2) {
                row.groups |= past;
            }
        }
        Break::RowGroup => row.groups &= !Set::of(rng.place_in(label.groups)?),
        Break::RowGroupPast => row.groups |= Set::of(group_past(policy, rng)?),
        _ => label.groups |= Set::of(rng.place_in(policy.all_groups() & !row.groups)?),
    }
    session[LABEL_AT..ROW_AT].copy_from_slice(&label.to_bytes());
    session[ROW_AT..].copy_from_slice(&row.to_bytes());
    Some(())
}
