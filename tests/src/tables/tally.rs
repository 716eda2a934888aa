//! What was seen of row calls, to know that they go everywhere.

use super::{Step, LARGEST};
use crate::builder::{Edition, Variant};
use crate::compare::CallTally;
use crate::ffi::Answer;
use crate::maps::MapKind;
use crate::row_calls::{first_difference, RowCall};
use crate::walk::is_ruled;
use std::collections::{BTreeMap, BTreeSet};

/// For each call the answers that it can give on an accepted image.
const OUTCOMES: [(&str, &[&str]); 4] = [
    ("read", &["rows", "no rows", "19", "12", "13"]),
    ("read_mapped", &["rows", "no rows", "19", "12", "20", "13"]),
    ("update", &["done", "19", "12", "16", "14", "15"]),
    ("masked", &["payload", "mask", "19", "12", "14"]),
];

/// Rows of tag 0 and of unknown tags, which READ and FULL see in edition 1 and not in edition 2.
const ONLY_ONE: [&str; 4] = [
    "the payload of tag 0",
    "the payload of a tag over all",
    "all rows, tag 0 among them",
    "an update of tag 0",
];
const ONLY_TWO: [&str; 4] = [
    "the mask for tag 0 with READ or FULL",
    "the mask for a tag over all with READ or FULL",
    "not all rows with READ or FULL",
    "14 below the number of rows with READ or FULL",
];

#[derive(Debug, Default)]
pub struct RowTally {
    answers: CallTally,
    /// How often each kind came to each call; 0 for one that never came.
    kinds: BTreeMap<(&'static str, &'static str), usize>,
    /// The privileges of users whose calls were done.
    privileges: BTreeSet<u8>,
}

impl RowTally {
    pub fn add(&mut self, step: &Step) {
        let call = step.call.name();
        self.answers.count(call, step.call.outcome(step.answer));
        if matches!(step.answer, Answer::Done(_)) {
            self.privileges.extend(step.privileges);
        }
        for (kind, holds) in kinds(step) {
            *self.kinds.entry((call, kind)).or_default() += usize::from(holds);
        }
    }

    /// Asks that each call gave each of its answers and saw each of its kinds at least so often,
    /// and that users had all privilege bytes that there are. What only one edition has never came in the
    /// other.
    pub fn assert_varied(&self, variant: Variant, least: usize) {
        for (call, outcomes) in OUTCOMES {
            self.answers.assert_least(call, outcomes, least);
            self.answers.assert_of_images(variant.profile, call, least);
        }
        for ((call, kind), times) in &self.kinds {
            let is_of_other = match variant.edition {
                Edition::One => ONLY_TWO.contains(kind),
                Edition::Two => ONLY_ONE.contains(kind),
            };
            let is_right = match is_of_other {
                true => *times == 0,
                false => *times >= least,
            };
            assert!(is_right, "{call}: {kind} came {times} times");
        }
        assert_eq!(self.privileges.len(), variant.privilege_bytes());
    }
}

/// The kinds of a step's call, and whether the step is of them.
fn kinds(step: &Step) -> Vec<(&'static str, bool)> {
    let length = step.lent.table.len();
    let is_done = matches!(step.answer, Answer::Done(_));
    let is_width = (5..=512).contains(&step.call.width());
    let kinds = vec![
        ("a large table", is_done && length > LARGEST - 512),
        ("12 by width", is_refused(step, 12) && !is_width),
        ("12 by length", is_refused(step, 12) && is_width),
    ];
    let more = match &step.call {
        RowCall::Read { width } => kinds_of_read(step, length.checked_div(*width)),
        RowCall::ReadMapped { width, map } => {
            let of_read = kinds_of_read(step, length.checked_div(*width));
            [of_read, kinds_of_map(step, map)].concat()
        }
        RowCall::Update { width, n, .. } => kinds_of_update(step, *width, *n),
        RowCall::Masked { width, place, .. } => kinds_of_masked(step, *width, *place),
    };
    [kinds, more].concat()
}

/// Whether the session's user holds READ or FULL.
fn sees_all(step: &Step) -> bool {
    step.privileges.is_some_and(|held| !is_ruled(held))
}

fn is_refused(step: &Step, by: u32) -> bool {
    matches!(step.answer, Answer::Refused { number, .. } if number == by)
}

/// Of a table with so many rows, if its width is one.
fn kinds_of_read(step: &Step, rows: Option<usize>) -> Vec<(&'static str, bool)> {
    let (room, needed) = (step.lent.buffer.len(), step.needed);
    let count = match step.answer {
        Answer::Done(count) => Some(count as usize),
        _ => None,
    };
    let reads_rows = count.is_some_and(|count| count > 0);
    let is_all = reads_rows && count == rows;
    let has_tag_0 = || {
        step.lent
            .table
            .chunks(step.call.width())
            .any(|it| it[..4] == [0; 4])
    };
    let is_long = is_refused(step, 13);
    vec![
        ("an empty table", count == Some(0) && rows == Some(0)),
        ("none of the rows", count == Some(0) && rows > Some(0)),
        ("some rows", reads_rows && count < rows),
        ("all rows", is_all),
        ("all rows, tag 0 among them", is_all && has_tag_0()),
        (
            "not all rows with READ or FULL",
            count.is_some() && count < rows && sees_all(step),
        ),
        ("a buffer just long enough", reads_rows && room == needed),
        ("a longer buffer", reads_rows && room > needed),
        ("a buffer short by one", is_long && room + 1 == needed),
        ("no buffer", is_long && room == 0),
    ]
}

/// A read by a map that is right or wrong.
fn kinds_of_map(step: &Step, map: &[u8]) -> Vec<(&'static str, bool)> {
    let is_done = matches!(step.answer, Answer::Done(_));
    let is_wrong = step.map.is_some_and(|kind| kind != MapKind::Right);
    let refused = is_refused(step, 20);
    assert!(!(is_done && is_wrong) && (!refused || is_wrong));
    let of_kind = |kind: MapKind| (kind.name(), refused && step.map == Some(kind));
    let kinds = vec![
        ("done without labels", is_done && map.is_empty()),
        (
            "20 on an empty table",
            refused && step.lent.table.is_empty(),
        ),
        (
            "20 and no room",
            refused && step.lent.buffer.len() < step.needed,
        ),
        ("12 and a wrong map", is_refused(step, 12) && is_wrong),
    ];
    [kinds, MapKind::WRONG.map(of_kind).to_vec()].concat()
}

fn kinds_of_update(step: &Step, width: usize, n: usize) -> Vec<(&'static str, bool)> {
    let (before, after) = (&step.lent.table, &step.after.table);
    let place = (before != after).then(|| first_difference(before, after) / width);
    let is_past = is_refused(step, 14);
    let is_tag_0 = |place: usize| before[place * width..][..4] == [0; 4];
    let is_row = n.checked_mul(width).is_some_and(|at| at < before.len());
    vec![
        ("row n at place n", place == Some(n)),
        ("row n at a later place", place > Some(n)),
        ("an update of tag 0", place.is_some_and(is_tag_0)),
        (
            "14 below the number of rows with READ or FULL",
            is_past && is_row && sees_all(step),
        ),
        (
            "n at the count",
            is_past && n.checked_mul(width) == Some(step.needed),
        ),
        ("a huge n", is_past && n >= 1 << 32),
    ]
}

fn kinds_of_masked(step: &Step, width: usize, place: usize) -> Vec<(&'static str, bool)> {
    let table = &step.lent.table;
    let offset = place.checked_mul(width);
    let tag = offset.and_then(|at| table.get(at..)?.first_chunk());
    let tag = tag.map(|&tag| u32::from_le_bytes(tag));
    let over = tag > Some(99_999_999);
    let is_past = is_refused(step, 14);
    let wraps = offset.is_none() && place.wrapping_mul(width) < table.len();
    let [mask, payload] = [0, 1].map(|value| step.answer == Answer::Done(value));
    let hidden = mask && sees_all(step);
    vec![
        ("the payload of tag 0", payload && tag == Some(0)),
        ("the mask for tag 0", mask && tag == Some(0)),
        ("the payload of a tag over all", payload && over),
        ("the mask for a tag over all", mask && over),
        (
            "the mask for tag 0 with READ or FULL",
            hidden && tag == Some(0),
        ),
        (
            "the mask for a tag over all with READ or FULL",
            hidden && over,
        ),
        (
            "a place at the count",
            is_past && offset == Some(table.len()),
        ),
        ("a huge place", is_past && place >= 1 << 32),
        ("a place whose offset wraps", is_past && wraps),
    ]
}
