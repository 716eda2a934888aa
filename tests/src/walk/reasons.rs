//! Why a call on a session was answered as it was in the release profile: the rules of request R-10 on the
//! builder's sets.

use super::{label_at, label_of, Step, LABEL_AT, ROW_AT};
use crate::builder::{Label, User};
use crate::calls::Call;
use crate::ffi::Answer;
use crate::model;

const READ: u8 = 1;
const FULL: u8 = 2;

/// All that `reasons` tells apart, for each call.
pub const REASONS: [(&str, &[&str]); 4] = [
    (
        "may_read",
        &[
            "yes, a session without groups",
            "yes, the same groups",
            "yes, released further",
            "no by groups alone",
            "no by groups alone, to none",
            "no by level alone",
            "no by compartments alone",
        ],
    ),
    (
        "may_write",
        &[
            "yes, a session without groups",
            "yes, the same groups",
            "yes, released further",
            "no by groups alone",
            "no by groups alone, to none",
            "no by level alone",
            "no by minimum alone",
            "no by write compartments alone",
            "no with READ",
        ],
    ),
    (
        "set_label",
        &[
            "done, groups added",
            "done, groups given up",
            "11 by groups alone",
            "11 by level alone",
            "11 by compartments alone",
        ],
    ),
    (
        "set_row_label",
        &["done, groups added", "done, groups given up"],
    ),
];

/// The reason of an answer that goes by labels, if the call is one of those that have reasons.
pub fn reason(step: &Step) -> Option<&'static str> {
    let user = step.policy.users.get(usize::from(step.lent[0]))?;
    let session = label_at(&step.lent, LABEL_AT);
    match &step.call {
        Call::MayRead(tag) | Call::MayWrite(tag) => {
            let row = step.policy.labels.iter().find(|it| it.tag == *tag)?;
            let Answer::Done(answer) = step.answer else {
                return None;
            };
            let is_write = matches!(step.call, Call::MayWrite(_));
            let all = if is_write { FULL } else { READ | FULL };
            if user.privileges & all != 0 {
                return None;
            }
            verdict(user, &session, row, is_write, answer == 1)
        }
        Call::SetLabel(text) => {
            let label = parsed(step, text)?;
            match step.answer {
                Answer::Done(_) => changed(&session, &label),
                Answer::Refused { number: 11, .. } => outside(user, &label, step),
                _ => None,
            }
        }
        Call::SetRowLabel(text) if step.answer == Answer::Done(0) => {
            changed(&label_at(&step.lent, ROW_AT), &parsed(step, text)?)
        }
        _ => None,
    }
}

fn parsed(step: &Step, text: &[u8]) -> Option<Label> {
    let label = model::parse(step.image, text).ok()?;
    Some(label_of(&label.to_bytes()))
}

/// A verdict for a user whom the privileges don't let see all. It is the one by the rules.
fn verdict(
    user: &User,
    session: &Label,
    row: &Label,
    is_write: bool,
    is_yes: bool,
) -> Option<&'static str> {
    let write = session.compartments & user.compartments.write;
    let tests = [
        (session.groups.is_in(row.groups), "no by groups alone"),
        (row.level <= session.level, "no by level alone"),
        (
            row.compartments.is_in(session.compartments),
            "no by compartments alone",
        ),
        (
            !is_write || user.levels.minimum <= row.level,
            "no by minimum alone",
        ),
        (
            !is_write || row.compartments.is_in(write),
            "no by write compartments alone",
        ),
    ];
    let failed: Vec<&str> = tests.iter().filter(|it| !it.0).map(|it| it.1).collect();
    assert_eq!(failed.is_empty(), is_yes, "{user:?}, {session:?}, {row:?}");
    match failed[..] {
        [] if session.groups.is_empty() => Some("yes, a session without groups"),
        [] if session.groups == row.groups => Some("yes, the same groups"),
        [] => Some("yes, released further"),
        _ if is_write && user.privileges & READ != 0 => Some("no with READ"),
        ["no by groups alone"] if row.groups.is_empty() => Some("no by groups alone, to none"),
        [alone] => Some(alone),
        _ => None,
    }
}

/// How the groups of a new label differ from the old one's.
fn changed(old: &Label, new: &Label) -> Option<&'static str> {
    match (old.groups.is_in(new.groups), new.groups.is_in(old.groups)) {
        (true, false) => Some("done, groups added"),
        (false, true) => Some("done, groups given up"),
        _ => None,
    }
}

/// What of the row label is outside the new session label.
fn outside(user: &User, label: &Label, step: &Step) -> Option<&'static str> {
    let row = label_at(&step.lent, ROW_AT);
    let write = label.compartments & user.compartments.write;
    let tests = [
        (label.groups.is_in(row.groups), "11 by groups alone"),
        (row.level <= label.level, "11 by level alone"),
        (row.compartments.is_in(write), "11 by compartments alone"),
    ];
    let failed: Vec<&str> = tests.iter().filter(|it| !it.0).map(|it| it.1).collect();
    assert!(!failed.is_empty(), "{user:?}, {label:?}, {row:?}");
    match failed[..] {
        [alone] => Some(alone),
        _ => None,
    }
}
