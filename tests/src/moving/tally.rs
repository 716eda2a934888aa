//! What was seen of moves up, to know that they go everywhere.

use super::Move;
use crate::builder::{Edition, Profile};
use crate::compare::CallTally;
use crate::ffi::Answer;
use crate::model::{check, compaccess_users};

const MOVE: &str = "move_up";

/// The answers that a move up has in each profile.
const OF_BOTH: [&str; 22] = [
    "done, a buffer just long enough",
    "done, a longer buffer",
    "13, no buffer",
    "13, a buffer short by one",
    "13",
    "37, nobody holds it",
    "37 by labels",
    "37 by users",
    "37 by both",
    "1 in edition 1",
    "2 in edition 1",
    "31 in edition 1",
    "32 in edition 1",
    "33 in edition 1",
    "34 in edition 1",
    "31 to 35 before 37",
    "2 in edition 2",
    "31 in edition 2, accepted elsewhere",
    "31 in edition 2, 31 elsewhere",
    "31 in edition 2, 32 elsewhere",
    "31 in edition 2, 33 elsewhere",
    "31 in edition 2, 34 elsewhere",
];

/// Those by COMPACCESS and by parents, which the release profile has not.
const OF_TREES: [&str; 11] = [
    "36, one holds it",
    "36, one holds it, before 13",
    "36, some hold it",
    "36, some hold it, before 13",
    "36, all hold it",
    "36, all hold it, before 13",
    "37, one holds it",
    "37, some hold it",
    "37, all hold it",
    "35 in edition 1",
    "31 in edition 2, 35 elsewhere",
];

#[derive(Debug, Default)]
pub struct MoveTally(CallTally);

impl MoveTally {
    pub fn add(&mut self, it: &Move) {
        let outcome = outcome(it);
        if outcome.starts_with("37") {
            self.0.count(MOVE, format!("37, {}", holders(&it.image)));
        }
        self.0.count(MOVE, outcome);
    }

    /// Asks that each answer of the profile came at least so often in each of its ways. Of the others 35 may
    /// come, where an image was told to be a tree.
    pub fn assert_varied(&self, profile: Profile, least: usize) {
        self.0.assert_least(MOVE, &OF_BOTH, least);
        match profile {
            Profile::Tree => self.0.assert_least(MOVE, &OF_TREES, least),
            Profile::Release => {
                let held = OF_TREES.iter().filter(|it| it.contains("hold"));
                held.for_each(|it| assert_eq!(self.0.times(MOVE, it), 0, "{it}"));
            }
        }
    }
}

/// The answer, and why it is given.
fn outcome(it: &Move) -> String {
    let room = it.buffer.len();
    let is_two = it.image.get(4) == Some(&Edition::Two.number());
    let number = match it.answer {
        Answer::Done(length) if length == room as u64 => {
            return "done, a buffer just long enough".to_string()
        }
        Answer::Done(_) => return "done, a longer buffer".to_string(),
        Answer::Refused { number, .. } => number,
    };
    let is_over = over(&it.image).contains(&true);
    match number {
        13 if room == 0 => "13, no buffer".to_string(),
        13 if it.needed == Some(room + 1) => "13, a buffer short by one".to_string(),
        13 => "13".to_string(),
        36 => before_room(it),
        37 => by_what(&it.image),
        31 if is_two => match check(&it.image) {
            Ok(()) => "31 in edition 2, accepted elsewhere".to_string(),
            Err(refusal) => format!("31 in edition 2, {} elsewhere", refusal.number()),
        },
        31.. if is_over && !is_two => "31 to 35 before 37".to_string(),
        _ if is_two => format!("{number} in edition 2"),
        _ => format!("{number} in edition 1"),
    }
}

/// Which users of an accepted image of edition 1 hold COMPACCESS.
fn holders(image: &[u8]) -> &'static str {
    let users = usize::from(image[8]) + 256 * usize::from(image[9]);
    match compaccess_users(image, usize::MAX).map_or(0, |list| list.len()) {
        0 => "nobody holds it",
        1 => "one holds it",
        count if count == users => "all hold it",
        _ => "some hold it",
    }
}

/// Who holds COMPACCESS, and whether the moved image would have room without it.
fn before_room(it: &Move) -> String {
    let who = holders(&it.image);
    match it.needed.is_some_and(|needed| it.buffer.len() < needed) {
        true => format!("36, {who}, before 13"),
        false => format!("36, {who}"),
    }
}

/// Whether the header counts too many labels for edition 2, and too many users.
fn over(image: &[u8]) -> [bool; 2] {
    let count = |at: usize| match image.get(at..at + 2) {
        Some(bytes) => usize::from(bytes[0]) + 256 * usize::from(bytes[1]),
        None => 0,
    };
    let two = Edition::Two;
    [count(10) > two.most_labels(), count(8) > two.most_users()]
}

fn by_what(image: &[u8]) -> String {
    let what = match over(image) {
        [true, true] => "both",
        [true, false] => "labels",
        _ => "users",
    };
    format!("37 by {what}")
}
