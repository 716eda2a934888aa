//! Verdicts on a row's label, which are asked of a tag.

use super::groups::below;
use super::label::Label;
use super::layout::{set_at, u32_at, Image, COMPARTMENT_SET};
use super::profile::Profile;
use super::session::{user_of, Session};
use super::user::{Privilege, User};
use super::Refusal;

/// Whether the session may read a row with the tag.
pub fn may_read(image: &Image, session: &Session, tag: u32) -> Result<bool, Refusal> {
    let user = user_of(image, session)?;
    Ok(reads(image, &user, &session.label, tag))
}

/// "The maximum read label is the user's maximum level with the read compartments and read groups;
/// what is readable at it follows the same rules, COMPACCESS included." By R-10 it "means exactly the user's
/// read groups" in the release profile too. A user is given by its place; where there is none, nothing is
/// readable.
pub fn may_read_at_maximum(image: &Image, user: usize, tag: u32) -> bool {
    let Some(user) = User::at(image, user) else {
        return false;
    };
    let maximum = Label {
        level: user.maximum,
        compartments: user.read.compartments,
        groups: user.read.groups,
    };
    reads(image, &user, &maximum, tag)
}

/// Reading at a session label. "READ (reading only) and FULL (both) see every row, tag 0 and unknown
/// tags too. Otherwise those two tags are denied."
fn reads(image: &Image, user: &User, label: &Label, tag: u32) -> bool {
    match label_with(image, tag) {
        Some(row) => reads_label(image, user, label, &row),
        None => reads_unknown(image, user),
    }
}

/// The same of a row's label.
pub fn reads_label(image: &Image, user: &User, label: &Label, row: &Label) -> bool {
    let by_compartments =
        user.has(Privilege::CompAccess) && is_readable_by_compartments(label, row);
    sees_all(user) || by_compartments || is_readable(image, label, row)
}

/// The same of tag 0 and unknown tags. By R-11: "In edition 2 tag 0 and unknown tags are denied to READ and
/// FULL too, mapped or not."
pub fn reads_unknown(image: &Image, user: &User) -> bool {
    sees_all(user) && image.edition().shows_unknown
}

fn sees_all(user: &User) -> bool {
    user.has(Privilege::Read) || user.has(Privilege::Full)
}

/// Whether the session may write a row with the tag.
pub fn may_write(image: &Image, session: &Session, tag: u32) -> Result<bool, Refusal> {
    let user = user_of(image, session)?;
    let writes_all = user.has(Privilege::Full);
    let Some(row) = label_with(image, tag) else {
        return Ok(writes_all && image.edition().shows_unknown);
    };
    if writes_all {
        return Ok(true);
    }
    let by_compartments =
        user.has(Privilege::CompAccess) && is_writable_by_compartments(&user, &session.label, &row);
    Ok(by_compartments || is_writable(image, &user, &session.label, &row))
}

/// The label that stands under a tag.
fn label_with(image: &Image, tag: u32) -> Option<Label> {
    let mut places = 0..image.counts.labels().count;
    let found = places.find(|&place| u32_at(image.label(place), 0) == tag as usize);
    found.map(|place| label_at(image, place))
}

/// The label of the record at a place.
pub fn label_at(image: &Image, place: usize) -> Label {
    let record = image.label(place);
    Label {
        level: usize::from(record[4]),
        compartments: set_at(record, 8, COMPARTMENT_SET),
        groups: image.label_groups(record),
    }
}

/// "**Read**: row level ≤ session level; row groups empty, or one of them in below(session groups);
/// row compartments all in the session's." By R-10, in the release profile "a row passes the group test of
/// reading exactly if all session groups are among the row's".
fn is_readable(image: &Image, session: &Label, row: &Label) -> bool {
    let by_groups = match image.profile() {
        Profile::Tree => {
            let shares_group = row.groups.shares_one(&below(image, &session.groups));
            row.groups.is_empty() || shares_group
        }
        Profile::Release => session.groups.is_subset(&row.groups),
    };
    row.level <= session.level && by_groups && row.compartments.is_subset(&session.compartments)
}

/// "**COMPACCESS** only adds. With the level test met: a row with compartments is also readable if
/// the session has them all .."
fn is_readable_by_compartments(session: &Label, row: &Label) -> bool {
    row.level <= session.level
        && !row.compartments.is_empty()
        && row.compartments.is_subset(&session.compartments)
}

/// The level test of writing: "minimum ≤ row level ≤ session level".
fn level_is_writable(user: &User, session: &Label, row: &Label) -> bool {
    user.minimum <= row.level && row.level <= session.level
}

fn is_writable(image: &Image, user: &User, session: &Label, row: &Label) -> bool {
    match image.profile() {
        Profile::Tree => is_writable_by_tree(image, user, session, row),
        Profile::Release => is_writable_by_release(image, user, session, row),
    }
}

/// "**Write**: .. Row has groups: one is in the write groups, and all its compartments are in the
/// session's. No groups: all its compartments are in the write compartments."
fn is_writable_by_tree(image: &Image, user: &User, session: &Label, row: &Label) -> bool {
    if !level_is_writable(user, session, row) {
        return false;
    }
    if row.groups.is_empty() {
        return has_write_compartments(user, session, row);
    }
    let has_group = row.groups.shares_one(&user.write_groups(image, session));
    has_group && row.compartments.is_subset(&session.compartments)
}

/// "Writing asks the read test, the minimum level, and write access to all row compartments."
fn is_writable_by_release(image: &Image, user: &User, session: &Label, row: &Label) -> bool {
    is_readable(image, session, row)
        && user.minimum <= row.level
        && has_write_compartments(user, session, row)
}

fn has_write_compartments(user: &User, session: &Label, row: &Label) -> bool {
    let write = user.write_compartments(session);
    row.compartments.is_subset(&write)
}

/// ".. and also writable if all are write compartments."
fn is_writable_by_compartments(user: &User, session: &Label, row: &Label) -> bool {
    level_is_writable(user, session, row)
        && !row.compartments.is_empty()
        && has_write_compartments(user, session, row)
}
