//! What was seen of calls on maps, to know that they go everywhere.

use super::{bit, MapCall, MapKind, Step};
use crate::builder::Variant;
use crate::compare::CallTally;
use crate::ffi::Answer;
use crate::walk::is_ruled;
use std::collections::BTreeSet;

/// For each call the answers that it can give on an accepted image.
const OUTCOMES: [(&str, &[&str]); 2] = [
    ("map", &["done", "19", "13"]),
    ("judge_map", &["done", "19", "20"]),
];

/// What maps were made for.
const LABELS: [&str; 4] = [
    "no labels",
    "one byte",
    "several bytes",
    "as many labels as bits",
];

/// What bits a map had that was made of some labels: of a session that goes by labels, and by READ or FULL.
const BITS: [&str; 4] = [
    "every bit by labels",
    "some bits by labels",
    "no bit by labels",
    "every bit by READ or FULL",
];

/// How the buffer was.
const BUFFERS: [&str; 6] = [
    "done, no buffer",
    "done, a buffer just long enough",
    "done, a longer buffer",
    "13, no buffer",
    "13, a buffer short by one",
    "13, a buffer shorter by more",
];

/// What a map was that was judged, beside what it was to that image and session.
const OTHERS: &str = "another image's map";

#[derive(Debug, Default)]
pub struct MapTally {
    answers: CallTally,
    /// Of what kind the maps were.
    kinds: CallTally,
    /// The privileges of users whose maps were made.
    privileges: BTreeSet<u8>,
}

impl MapTally {
    pub fn add(&mut self, step: &Step) {
        self.answers.add(step.call.name(), false, step.answer);
        let is_of_map = match step.answer {
            Answer::Done(_) => true,
            Answer::Refused { number, .. } => [13, 20].contains(&number),
        };
        let (true, Some(right)) = (is_of_map, &step.right) else {
            return;
        };
        match &step.call {
            MapCall::Make => self.add_made(step, right),
            MapCall::Judge(map) => self.add_judged(step, right, map),
            MapCall::Read(_) => {}
        }
    }

    fn add_made(&mut self, step: &Step, right: &[u8]) {
        let (room, needed) = (step.lent.buffer.len(), right.len());
        let is_done = matches!(step.answer, Answer::Done(_));
        self.kinds.count("buffer", buffer(room, needed, is_done));
        if !is_done {
            return;
        }
        self.privileges.extend(step.privileges);
        self.kinds.count("labels", labels(step.labels));
        if step.labels > 0 {
            let by_labels = step.privileges.is_some_and(is_ruled);
            self.kinds
                .count("bits", bits(right, step.labels, by_labels));
        }
    }

    /// A map is accepted exactly if it is the right one.
    fn add_judged(&mut self, step: &Step, right: &[u8], map: &[u8]) {
        let kind = MapKind::of(right, step.labels, map);
        let is_done = step.answer == Answer::Done(0);
        assert_eq!(kind == MapKind::Right, is_done, "{right:?}, {map:?}");
        self.kinds.count("judged", kind.name());
        if step.elsewhere.as_deref() == Some(map) {
            self.kinds.add(OTHERS, false, step.answer);
        }
    }

    /// Asks that each call gave each of its answers at least so often and in each of its ways, and that users had
    /// all privilege bytes that there are.
    pub fn assert_varied(&self, variant: Variant, least: usize) {
        for (call, outcomes) in OUTCOMES {
            self.answers.assert_least(call, outcomes, least);
            self.answers.assert_of_images(variant.profile, call, least);
        }
        self.kinds.assert_least("labels", &LABELS, least);
        self.kinds.assert_least("bits", &BITS, least);
        self.kinds.assert_least("buffer", &BUFFERS, least);
        self.kinds
            .assert_least("judged", &[MapKind::Right.name()], least);
        let wrong = MapKind::WRONG.map(MapKind::name);
        self.kinds.assert_least("judged", &wrong, least);
        self.kinds.assert_least(OTHERS, &["done", "20"], least);
        assert_eq!(self.privileges.len(), variant.privilege_bytes());
    }
}

fn labels(count: usize) -> &'static str {
    match count {
        0 => "no labels",
        _ if count.is_multiple_of(8) => "as many labels as bits",
        1..8 => "one byte",
        _ => "several bytes",
    }
}

/// With READ or FULL every label's bit is set.
fn bits(map: &[u8], labels: usize, by_labels: bool) -> &'static str {
    let set = (0..labels).filter(|&place| bit(map, place)).count();
    assert!(by_labels || set == labels, "{map:?}");
    match set {
        _ if !by_labels => "every bit by READ or FULL",
        0 => "no bit by labels",
        _ if set == labels => "every bit by labels",
        _ => "some bits by labels",
    }
}

fn buffer(room: usize, needed: usize, is_done: bool) -> &'static str {
    match is_done {
        true if room == 0 => "done, no buffer",
        true if room == needed => "done, a buffer just long enough",
        true => "done, a longer buffer",
        false if room == 0 => "13, no buffer",
        false if room + 1 == needed => "13, a buffer short by one",
        false => "13, a buffer shorter by more",
    }
}
