//! Sessions: opening one, a new session label, a new row label, and refusal 19.

use super::groups::below;
use super::label::{Label, LABEL};
use super::layout::Image;
use super::places::Places;
use super::profile::Profile;
use super::text::label_of;
use super::user::{place_of, User};
use super::Refusal;

/// The bytes of a session.
const SESSION: usize = 104;

/// "A session is a user's place, a session label and a row label."
#[derive(Clone, Debug, PartialEq, Eq)]
pub struct Session {
    pub user: usize,
    /// The signed-on user's place.
    pub signed_on: usize,
    pub label: Label,
    pub row: Label,
}

impl Session {
    /// Byte 0 is the user's place and byte 1 the signed-on user's; 8..55 are the session label and
    /// 56..103 the row label. The other bytes are not looked at.
    pub fn read(bytes: &[u8; SESSION]) -> Session {
        let label = |at: usize| {
            let mut label = [0; LABEL];
            label.copy_from_slice(&bytes[at..at + LABEL]);
            Label::read(&label)
        };
        Session {
            user: usize::from(bytes[0]),
            signed_on: usize::from(bytes[1]),
            label: label(8),
            row: label(56),
        }
    }

    /// The other bytes are zero.
    pub fn to_bytes(&self) -> [u8; SESSION] {
        let mut bytes = [0; SESSION];
        bytes[0] = self.user as u8;
        bytes[1] = self.signed_on as u8;
        bytes[8..56].copy_from_slice(&self.label.to_bytes());
        bytes[56..].copy_from_slice(&self.row.to_bytes());
        bytes
    }
}

/// "Opening takes a user name and gives the default label and the default row label."
pub fn open(image: &Image, name: &[u8]) -> Result<Session, Refusal> {
    let place = place_of(image, name).ok_or(Refusal::User)?;
    let user = User::at(image, place).ok_or(Refusal::User)?;
    Ok(Session {
        user: place,
        signed_on: place,
        label: user.default,
        row: user.row,
    })
}

/// The session with a new session label, which comes as text.
pub fn set_label(image: &Image, session: &Session, text: &[u8]) -> Result<Session, Refusal> {
    let user = user_of(image, session)?;
    let label = label_of(image, text)?;
    session_label_holds(image, &user, &label, &session.row)?;
    Ok(Session {
        label,
        ..session.clone()
    })
}

/// The session with a new row label, which comes as text.
pub fn set_row_label(image: &Image, session: &Session, text: &[u8]) -> Result<Session, Refusal> {
    let user = user_of(image, session)?;
    let row = label_of(image, text)?;
    row_label_holds(image, &user, &session.label, &row)?;
    Ok(Session {
        row,
        ..session.clone()
    })
}

/// The user of a session that keeps its rules: "user's place exists and both labels meet the two
/// lists under Sessions". The signed-on user is the same until request R-8.
pub fn user_of(image: &Image, session: &Session) -> Result<User, Refusal> {
    let user = User::at(image, session.user).ok_or(Refusal::Session)?;
    let Session { label, row, .. } = session;
    let holds = session.signed_on == session.user
        && session_label_holds(image, &user, label, row).is_ok()
        && row_label_holds(image, &user, label, row).is_ok();
    holds.then_some(user).ok_or(Refusal::Session)
}

/// "New session label: minimum ≤ level ≤ maximum; compartments in read; groups in below(read); and
/// the present row label has level ≤ the new level, compartments and groups inside the new write
/// sets." By R-10 other groups in the release profile.
fn session_label_holds(
    image: &Image,
    user: &User,
    label: &Label,
    row: &Label,
) -> Result<(), Refusal> {
    if label.level < user.minimum || label.level > user.maximum {
        return Err(Refusal::Level);
    }
    if !label.compartments.is_subset(&user.read.compartments) {
        return Err(Refusal::Compartments);
    }
    if !session_groups_hold(image, user, &label.groups) {
        return Err(Refusal::Groups);
    }
    let row_inside = row.level <= label.level
        && row.compartments.is_subset(&user.write_compartments(label))
        && row_groups_hold(image, user, label, &row.groups);
    row_inside.then_some(()).ok_or(Refusal::RowLabel)
}

/// "New row label: minimum ≤ level ≤ session level; compartments and groups inside the session's
/// write sets." By R-10 other groups in the release profile.
fn row_label_holds(image: &Image, user: &User, label: &Label, row: &Label) -> Result<(), Refusal> {
    if row.level < user.minimum || row.level > label.level {
        return Err(Refusal::Level);
    }
    if !row.compartments.is_subset(&user.write_compartments(label)) {
        return Err(Refusal::Compartments);
    }
    if !row_groups_hold(image, user, label, &row.groups) {
        return Err(Refusal::Groups);
    }
    Ok(())
}

/// "Groups in below(read)"; in the release profile "a session's groups must exist and contain all of the
/// user's read groups".
fn session_groups_hold(image: &Image, user: &User, groups: &Places) -> bool {
    let read = &user.read.groups;
    match image.profile() {
        Profile::Tree => groups.is_subset(&below(image, read)),
        Profile::Release => exist(image, groups) && read.is_subset(groups),
    }
}

/// Groups "inside the session's write sets"; in the release profile "a row label's groups must exist and
/// contain the session's, in place of lying in its write groups".
fn row_groups_hold(image: &Image, user: &User, session: &Label, groups: &Places) -> bool {
    match image.profile() {
        Profile::Tree => groups.is_subset(&user.write_groups(image, session)),
        Profile::Release => exist(image, groups) && session.groups.is_subset(groups),
    }
}

fn exist(image: &Image, groups: &Places) -> bool {
    groups.all_below(image.counts.groups)
}
