//! What was seen of damaged images, to know that they go everywhere.

use super::told::kinds;
use super::Case;
use crate::builder::{Edition, Profile, Variant};
use crate::compare::expected;
use crate::ffi::Answer;
use crate::model::{faults, Fault, Kind};
use std::collections::{BTreeMap, BTreeSet};

// Kinds that not every edition has in every profile.
pub const HIGH_GROUP: &str = "32 at a group past place 63";
pub const RING_AT_0: &str = "35 at group 0";
pub const RING: &str = "35";
pub const HIGH_RING: &str = "35 past place 63";
pub const HELD: &str = "34 by COMPACCESS";
pub const HELD_BEFORE: &str = "34 by COMPACCESS, 35 or below";
pub const PARENT: &str = "32 by a group as a parent";
pub const OF_RELEASE: [&str; 4] = [
    "34 by below, default lacks a read group",
    "34 by below, row lacks a default group",
    "34 by below, write lacks a read group",
    "34 by below, write has another group",
];

/// Whether a kind is one of an edition in a profile.
fn is_of(kind: &str, variant: Variant) -> bool {
    let is_two = variant.edition == Edition::Two;
    let is_release = variant.is_release();
    match kind {
        HIGH_GROUP => is_two,
        RING_AT_0 | RING => !is_release,
        HIGH_RING => is_two && !is_release,
        HELD | HELD_BEFORE => !variant.has_compaccess(),
        PARENT => is_release,
        _ if OF_RELEASE.contains(&kind) => is_release,
        _ => true,
    }
}

/// Counts damaged images that 31 to 35 refuse. Those that 1 or 2 refuse tell nothing of places.
#[derive(Debug, Default)]
pub struct DamageTally {
    /// How many were damaged once, and how many at several places.
    images: [usize; 2],
    /// How many of the latter have two faults or more.
    with_two_faults: usize,
    /// How many are told with the damage that was done first, and how many not.
    as_first_and_not: [usize; 2],
    /// How many were told to be of the other profile. They are not counted below.
    of_other_profile: usize,
    /// How many there are of each kind; 0 for one that never came.
    kinds: BTreeMap<&'static str, usize>,
    /// How many have these two faults, of which the first is told.
    pairs: BTreeMap<&'static str, usize>,
}

impl DamageTally {
    pub fn add(&mut self, case: &Case, answer: Answer) {
        let Answer::Refused { number, .. } = answer else {
            return;
        };
        if case.done.is_empty() || number < 31 {
            return;
        }
        self.images[usize::from(case.has_several())] += 1;
        let mut faults = faults(&case.image);
        faults.sort_by_key(Fault::key);
        faults.dedup();
        if case.has_several() {
            self.with_two_faults += usize::from(faults.len() > 1);
        }
        if case.done.len() > 1 {
            let as_first = answer == expected(Err(case.done[0].refusal()));
            self.as_first_and_not[usize::from(!as_first)] += 1;
        }
        if case.image[12] == case.variant.profile.other().number() {
            self.of_other_profile += 1;
            return;
        }
        for (kind, holds) in kinds(case.variant, &case.image, &faults) {
            *self.kinds.entry(kind).or_default() += usize::from(holds);
        }
        let pairs: BTreeSet<_> = faults[1..].iter().map(|&it| pair(faults[0], it)).collect();
        for pair in pairs {
            *self.pairs.entry(pair).or_default() += 1;
        }
    }

    /// Asks that there are so many images, that at least half of them have several faults, and that
    /// all that is counted came at least so often, but for what the edition has not in the profile.
    pub fn assert_varied(&self, variant: Variant, images: usize, least: usize) {
        let [one, several] = self.images;
        assert!(one + several >= images, "{one} and {several} images");
        let half = (one + several).div_ceil(2);
        assert!(self.with_two_faults >= half, "{self:?}");
        assert!(self.as_first_and_not.iter().all(|&times| times >= least));
        assert!(self.of_other_profile >= least, "{self:?}");
        let pairs = match variant.profile {
            Profile::Tree => 13,
            // Without those of 35 and another fault.
            Profile::Release => 10,
        };
        assert_eq!(self.pairs.len(), pairs, "{:?}", self.pairs);
        for (kind, times) in self.kinds.iter().chain(&self.pairs) {
            let is_right = match is_of(kind, variant) {
                true => *times >= least,
                false => *times == 0,
            };
            assert!(is_right, "{kind}: {times} times");
        }
    }
}

/// The fault that is told, and another.
fn pair(told: Fault, other: Fault) -> &'static str {
    use Fault::{Below, Layout, Record, Ring};
    match (told, other) {
        (Layout { .. }, Layout { .. }) => "31, 31 of a later block",
        (Layout { block }, Record { block: it, .. }) if it == block => "31, a record of the block",
        (Layout { .. }, Record { .. }) => "31, a record of a later block",
        (Layout { .. }, _) => "31, 35 or below",
        (Record { .. }, Layout { .. }) => "a record, 31 of a later block",
        (Record { block, .. }, Record { block: it, .. }) if it == block => "two of a block",
        (Record { .. }, Record { .. }) => "a record, a record of a later block",
        (Record { .. }, Ring { .. }) => "a record, 35",
        (
            Record {
                kind: Kind::User,
                block,
                record,
            },
            Below {
                block: lower,
                record: its,
            },
        ) if (lower, its) < (block, record) => "a user, a lower one by below",
        (Record { .. }, Below { .. }) => "a record, a user by below",
        (Ring { .. }, Ring { .. }) => "35, 35 at a higher group",
        (Ring { .. }, _) => "35, a user by below",
        (Below { .. }, _) => "below, a higher user by below",
    }
}
