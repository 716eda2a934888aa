//! What was seen of the calls of request R-12, to know that they go everywhere.

use super::{Asked, HolderCall};
use crate::builder::{Edition, Profile};
use crate::compare::CallTally;
use crate::ffi::Answer;
use crate::model::{check, compaccess_users};

/// How the buffer was, where the image isn't refused.
const BUFFERS: [&str; 5] = [
    "done, a buffer just long enough",
    "done, a longer buffer",
    "13, no buffer",
    "13, a buffer short by one",
    "13",
];

/// Who holds COMPACCESS in an image that is not refused. In the release profile it is nobody.
const NOBODY: [&str; 3] = [
    "nobody of no users",
    "nobody",
    "nobody, over a limit of edition 2",
];
const HOLDERS: [&str; 5] = [
    "one of several",
    "some",
    "all of several",
    "the only user",
    "some, over a limit of edition 2",
];

/// The refusals of images, also with no buffer, so that 13 would come too.
const REFUSED: [&str; 14] = [
    "1 in edition 1",
    "2 in edition 1",
    "31 in edition 1",
    "32 in edition 1",
    "33 in edition 1",
    "34 in edition 1",
    "31 to 35 in edition 1, no buffer",
    "2 in edition 2",
    "31 in edition 2, accepted elsewhere",
    "31 in edition 2, 31 elsewhere",
    "31 in edition 2, 32 elsewhere",
    "31 in edition 2, 33 elsewhere",
    "31 in edition 2, 34 elsewhere",
    "31 in edition 2, no buffer",
];

/// Those by parents, which the release profile has not.
const REFUSED_TREES: [&str; 2] = ["35 in edition 1", "31 in edition 2, 35 elsewhere"];

#[derive(Debug, Default)]
pub struct HolderTally(CallTally);

impl HolderTally {
    pub fn add(&mut self, it: &Asked) {
        let call = it.call.name();
        if it.needed.is_some() {
            self.0.count(call, buffer(it));
            self.0.count(call, holders(&it.image));
            return;
        }
        let Answer::Refused { number, .. } = it.answer else {
            panic!("{call} is done and has nothing to write");
        };
        let is_two = it.image.get(4) == Some(&Edition::Two.number());
        let edition = if is_two { 2 } else { 1 };
        let refused = match number {
            31 if is_two => format!("31 in edition 2, {} elsewhere", elsewhere(&it.image)),
            _ => format!("{number} in edition {edition}"),
        };
        self.0.count(call, refused);
        if it.buffer.is_empty() && number > 30 {
            let numbers = if is_two { "31" } else { "31 to 35" };
            let refused = format!("{numbers} in edition {edition}, no buffer");
            self.0.count(call, refused);
        }
    }

    /// Asks that each answer of the profile came to each call at least so often in each of its ways. A list of
    /// nobody is done without a buffer, and in the release profile with every buffer; an image is never so short.
    pub fn assert_varied(&self, profile: Profile, least: usize) {
        let [list, clear] = HolderCall::ALL.map(HolderCall::name);
        for call in [list, clear] {
            self.0.assert_least(call, &NOBODY, least);
            self.0.assert_least(call, &REFUSED, least);
        }
        self.0.assert_least(clear, &BUFFERS, least);
        match profile {
            Profile::Tree => {
                self.0.assert_least(list, &BUFFERS, least);
                for call in [list, clear] {
                    self.0.assert_least(call, &HOLDERS, least);
                    self.0.assert_least(call, &REFUSED_TREES, least);
                }
            }
            Profile::Release => {
                self.0.assert_least(list, &["done, a longer buffer"], least);
                let never = BUFFERS[2..].iter().map(|it| self.0.times(list, it));
                let held = HOLDERS.iter().map(|it| self.0.times(list, it));
                assert_eq!(never.chain(held).max(), Some(0), "{self:?}");
            }
        }
        let [list, clear] = [list, clear].map(|call| self.0.times(call, "done, no buffer"));
        assert!(list >= least && clear == 0, "{list} and {clear}");
    }
}

fn buffer(it: &Asked) -> &'static str {
    let (room, needed) = (it.buffer.len(), it.needed);
    let is_done = matches!(it.answer, Answer::Done(_));
    match is_done {
        true if room == 0 => "done, no buffer",
        true if needed == Some(room) => "done, a buffer just long enough",
        true => "done, a longer buffer",
        false if room == 0 => "13, no buffer",
        false if needed == Some(room + 1) => "13, a buffer short by one",
        false => "13",
    }
}

/// Of an image that is accepted.
fn holders(image: &[u8]) -> &'static str {
    let count = |at: usize| usize::from(image[at]) + 256 * usize::from(image[at + 1]);
    let (users, labels) = (count(8), count(10));
    let holders = compaccess_users(image, usize::MAX).map_or(0, |list| list.len());
    let two = Edition::Two;
    let is_over = users > two.most_users() || labels > two.most_labels();
    match holders {
        0 if users == 0 => "nobody of no users",
        0 if is_over => "nobody, over a limit of edition 2",
        0 => "nobody",
        _ if is_over => "some, over a limit of edition 2",
        1 if users == 1 => "the only user",
        1 => "one of several",
        _ if holders == users => "all of several",
        _ => "some",
    }
}

/// What the check gives.
fn elsewhere(image: &[u8]) -> String {
    match check(image) {
        Ok(()) => "accepted".to_string(),
        Err(refusal) => refusal.number().to_string(),
    }
}
