//! The images that calls are lent, by their policies.

use crate::growth::Part;
use crate::rows::reader;
use crate::worst;
use brawnesk_tests::builder::{full, random, random_with, sample};
use brawnesk_tests::builder::{Edition, Label, Policy, Rights, Set, Sizes, Tree};
use brawnesk_tests::rng::Rng;

#[derive(Clone, Copy, PartialEq, Eq)]
pub enum Of {
    /// The largest of edition 1.
    Full,
    /// Its levels, compartments and labels, with one user and no groups.
    Lean,
    /// The sample: 3 labels, 1 user, 4 groups.
    Sample,
    /// The largest of edition 2, its 256 groups in one chain in which each parent has the next place.
    ParentHigher,
    /// The same, but each parent has the place before.
    ParentLower,
    /// The same, but all groups but two stand right under one of these.
    Wide,
    /// The largest of edition 2 in the release profile.
    Release,
    /// The largest of edition 1 that can be moved up: as many labels and users as edition 2 may have, and
    /// nobody holds COMPACCESS.
    Movable,
    /// One of edition 1 whose names begin alike and collide in the filter.
    BeginAlike,
    /// The one of edition 1 whose check costs much: its names end alike too.
    Worst,
    /// The one of edition 2.
    Worst2,
    /// One of the largest with less of one thing.
    Part(Part),
}

impl Of {
    /// The images that a call can be asked on by name.
    pub const NAMED: [(&'static str, Of); 9] = [
        ("full", Of::Full),
        ("parent-higher", Of::ParentHigher),
        ("parent-lower", Of::ParentLower),
        ("wide", Of::Wide),
        ("release", Of::Release),
        ("movable", Of::Movable),
        ("begin-alike", Of::BeginAlike),
        ("worst", Of::Worst),
        ("worst-2", Of::Worst2),
    ];

    pub fn named(name: &str) -> Option<Of> {
        let found = Of::NAMED.iter().find(|(known, _)| *known == name);
        let found = found.map(|(_, of)| *of);
        found.or_else(|| Part::named(name).map(Of::Part))
    }

    pub fn policy(self) -> Policy {
        match self {
            Of::Full => full(Edition::One),
            Of::Lean => lean(full(Edition::One)),
            Of::Sample => sample(),
            Of::ParentHigher => largest(Tree::ParentHigher),
            Of::ParentLower => largest(Tree::ParentLower),
            Of::Wide => largest(Tree::Wide),
            Of::Release => random(Sizes::full(Edition::Two.release()), &mut Rng::new(SEED)),
            Of::Movable => movable(),
            Of::BeginAlike => worst::policy(Edition::One, worst::begin_alike),
            Of::Worst | Of::Worst2 => worst::policy(self.edition(), worst::alike),
            Of::Part(part) => part.policy(),
        }
    }

    pub fn edition(self) -> Edition {
        match self {
            Of::ParentHigher | Of::ParentLower | Of::Wide | Of::Release => Edition::Two,
            Of::Worst2 => Edition::Two,
            Of::Full | Of::Lean | Of::Sample | Of::Movable | Of::BeginAlike | Of::Worst => Edition::One,
            Of::Part(part) => part.edition(),
        }
    }
}

/// With this seed the tags of all these images are wide apart, as in the largest of edition 1, so what a
/// look-up of a tag takes can be compared.
const SEED: u64 = 4;

fn largest(tree: Tree) -> Policy {
    random_with(tree, Sizes::full(Edition::Two), &mut Rng::new(SEED))
}

fn movable() -> Policy {
    let sizes = Sizes {
        labels: Edition::Two.most_labels(),
        users: Edition::Two.most_users(),
        ..Sizes::full(Edition::One)
    };
    random_with(Tree::ParentHigher, sizes, &mut Rng::new(SEED)).held_by(&[])
}

fn lean(policy: Policy) -> Policy {
    let mut user = reader(&policy).clone();
    user.groups = Rights::default();
    let labels = policy.labels.iter().map(|label| Label {
        groups: Set::NONE,
        ..label.clone()
    });
    Policy {
        labels: labels.collect(),
        groups: Vec::new(),
        users: vec![user],
        ..policy
    }
}
