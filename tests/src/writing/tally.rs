//! What was seen of images that are written, to know that the cases go everywhere.

use super::{Lists, WriteCase, WriteKind};
use crate::builder::{Edition, Profile, Variant};
use crate::compare::CallTally;
use crate::ffi::Answer;
use crate::model::{laid_out, write_faults, Kind, WriteFault};
use std::collections::{BTreeMap, BTreeSet};

const WRITE: &str = "write";
const PAIRS: &str = "two faults";

/// The answers in each edition and profile, and why they are given.
const OF_ALL: [&str; 25] = [
    "done, a buffer just long enough",
    "done, a longer buffer",
    "13, no buffer",
    "13, a buffer short by one",
    "13",
    "31 by the edition",
    "31 by the profile",
    "31 by bytes of components",
    "31 by bytes of labels",
    "31 by bytes of users",
    "31 by no component",
    "31 by no level",
    "31 by levels",
    "31 by compartments",
    "31 by groups",
    "31 by labels",
    "31 by users",
    "31 before faults of records",
    "32 by an unknown class",
    "32 by the order of classes",
    "32 past the counts",
    "32",
    "33",
    "34",
    "34 by groups",
];

/// Two faults in each edition and profile, of which the first is told.
const PAIRS_OF_ALL: [&str; 8] = [
    "component, component",
    "component, label",
    "component, user",
    "label, label",
    "label, user",
    "user, user",
    "user, groups of a lower user",
    "groups, groups",
];

/// Those by rings, which the release profile has not.
const PAIRS_OF_TREES: [&str; 5] = [
    "component, ring",
    "label, ring",
    "user, ring",
    "ring, ring",
    "ring, groups",
];

#[derive(Debug, Default)]
pub struct WriteTally {
    seen: CallTally,
    kinds: BTreeMap<WriteKind, usize>,
    /// With more components than two bytes can count, of which 32 tells one.
    crowded: usize,
    /// Refused by 31 to 35 though the buffer is too short, too.
    before_room: usize,
    /// Written by the image of all limits.
    largest: usize,
}

impl WriteTally {
    pub fn add(&mut self, it: &WriteCase) {
        *self.kinds.entry(it.kind).or_default() += 1;
        self.seen.count(WRITE, outcome(it));
        let (number, length) = match it.answer {
            Answer::Done(length) => (0, length),
            Answer::Refused { number, .. } => (number, 0),
        };
        self.largest += usize::from(length == 127 * 512);
        let components = it.lists.count(Kind::Component);
        self.crowded += usize::from(number == 32 && components > 65_536);
        let image = laid_out(&it.lists.lent());
        let is_short = image.is_some_and(|image| image.len() > it.buffer.len());
        self.before_room += usize::from(number > 30 && is_short);
        if number > 31 {
            self.add_pairs(&it.lists);
        }
    }

    fn add_pairs(&mut self, lists: &Lists) {
        let mut faults = write_faults(&lists.lent());
        faults.sort_by_key(WriteFault::key);
        faults.dedup();
        let pairs = faults[1..].iter().filter_map(|&it| pair(faults[0], it));
        for pair in pairs.collect::<BTreeSet<_>>() {
            self.seen.count(PAIRS, pair);
        }
    }

    /// Asks that each kind came, and each answer and pair of faults that an edition has in a profile so often.
    pub fn assert_varied(&self, variant: Variant, least: usize) {
        self.seen.assert_least(WRITE, &OF_ALL, least);
        self.seen.assert_least(PAIRS, &PAIRS_OF_ALL, least);
        match variant.profile {
            Profile::Tree => {
                self.seen.assert_least(WRITE, &["35"], least);
                self.seen.assert_least(PAIRS, &PAIRS_OF_TREES, least);
            }
            // A ring may come where lists were told to be a tree.
            Profile::Release => {}
        }
        if variant.edition == Edition::Two {
            self.seen
                .assert_least(WRITE, &["32 at a group past place 63"], least);
        }
        for (kind, times) in &self.kinds {
            assert!(*times >= least, "{kind:?}: {times} times");
        }
        assert!(self.crowded >= 10, "{} crowded", self.crowded);
        assert!(self.before_room >= least, "{} before 13", self.before_room);
        assert!(self.largest >= 5, "{} of the largest", self.largest);
    }

    /// How many kinds of cases there were.
    pub fn kinds(&self) -> usize {
        self.kinds.len()
    }
}

/// The answer, and why it is given.
fn outcome(it: &WriteCase) -> String {
    let room = it.buffer.len();
    let lent = it.lists.lent();
    let (number, place) = match it.answer {
        Answer::Done(length) if length == room as u64 => {
            return "done, a buffer just long enough".to_string()
        }
        Answer::Done(_) => return "done, a longer buffer".to_string(),
        Answer::Refused { number, place } => (number, place as usize),
    };
    let needed = || laid_out(&lent).map_or(0, |image| image.len());
    match number {
        13 if room == 0 => "13, no buffer".to_string(),
        13 if needed() == room + 1 => "13, a buffer short by one".to_string(),
        31 if it.kind == WriteKind::RecordsAndList => "31 before faults of records".to_string(),
        31 => format!("31 by {}", by_counts(&it.lists)),
        32 => of_component(&it.lists, place),
        34 => {
            let fault = write_faults(&lent).into_iter().min_by_key(WriteFault::key);
            let is_last = matches!(fault, Some(WriteFault::Below { .. }));
            format!("34{}", if is_last { " by groups" } else { "" })
        }
        _ => number.to_string(),
    }
}

/// Why the counts are refused.
fn by_counts(lists: &Lists) -> &'static str {
    let [components, labels, users] = Kind::ALL.map(|kind| lists.count(kind));
    let is_whole =
        |kind: Kind| lists.lists[kind as usize].len() == lists.count(kind) * lists.size(kind);
    let [groups, most_labels, most_users] = match lists.edition {
        1 => [64, 1_680, 96],
        _ => [256, 800, 32],
    };
    let reasons = [
        ("the edition", !(1..=2).contains(&lists.edition)),
        ("the profile", lists.profile > 1),
        ("bytes of components", !is_whole(Kind::Component)),
        ("bytes of labels", !is_whole(Kind::Label)),
        ("bytes of users", !is_whole(Kind::User)),
        ("no component", components == 0),
        ("no level", lists.of_class(1) == 0),
        ("levels", lists.of_class(1) > 32),
        ("compartments", lists.of_class(2) > 64),
        ("groups", lists.of_class(3) > groups),
        ("labels", labels > most_labels),
        ("users", users > most_users),
    ];
    let reason = reasons.into_iter().find(|(_, holds)| *holds);
    reason.map_or("nothing", |(reason, _)| reason)
}

/// What is wrong with the component that is told.
fn of_component(lists: &Lists, place: usize) -> String {
    let [levels, compartments, groups] = [1, 2, 3].map(|class| lists.of_class(class));
    let class = lists.record(Kind::Component, place)[0];
    let first_group = levels + compartments;
    let expected = match place {
        _ if place < levels => 1,
        _ if place < first_group => 2,
        _ => 3,
    };
    let words = match class {
        _ if place >= first_group + groups => "32 past the counts",
        1..=3 if class != expected => "32 by the order of classes",
        1..=3 if place >= first_group + 64 => "32 at a group past place 63",
        1..=3 => "32",
        _ => "32 by an unknown class",
    };
    words.to_string()
}

/// The fault that is told, and another.
fn pair(told: WriteFault, other: WriteFault) -> Option<String> {
    let name = |fault: WriteFault| match fault {
        WriteFault::Counts => "counts",
        WriteFault::Record { kind, .. } => match kind {
            Kind::Component => "component",
            Kind::Label => "label",
            Kind::User => "user",
        },
        WriteFault::Ring { .. } => "ring",
        WriteFault::Below { .. } => "groups",
    };
    if let (
        WriteFault::Record {
            kind: Kind::User,
            place,
        },
        WriteFault::Below { user },
    ) = (told, other)
    {
        return (user < place).then(|| "user, groups of a lower user".to_string());
    }
    Some(format!("{}, {}", name(told), name(other)))
}
