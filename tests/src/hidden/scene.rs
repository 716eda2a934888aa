//! A policy, one of its users, and two tables that agree in the rows that the user may read at the
//! maximum read label.

use crate::builder::{to_image, Policy, Variant};
use crate::maps::bit;
use crate::model::{accepted, may_read_at_maximum};
use crate::rng::Rng;
use crate::tables::row;
use crate::walk::policy;
use std::collections::BTreeSet;

/// The privileges READ and FULL.
const SEES_ALL: u8 = 1 | 2;

pub struct Scene {
    pub policy: Policy,
    pub image: Vec<u8>,
    /// The place of the user, who has neither READ nor FULL.
    pub user: usize,
    pub width: usize,
    pub tables: [Vec<u8>; 2],
    /// The tags that are readable at the user's maximum read label.
    readable: BTreeSet<u32>,
}

impl Scene {
    pub fn new(variant: Variant, rng: &mut Rng) -> Scene {
        let (policy, user) = policy_and_user(variant, rng);
        let image = to_image(&policy);
        let readable = readable(&policy, &image, user);
        let mut scene = Scene {
            width: any_width(rng),
            tables: [Vec::new(), Vec::new()],
            policy,
            image,
            user,
            readable,
        };
        scene.fill(rng);
        scene
    }

    /// Rows that are readable at the maximum, the same for both tables, and between them others: at
    /// times the same others in other places.
    fn fill(&mut self, rng: &mut Rng) {
        let tags: Vec<u32> = self.readable.iter().copied().collect();
        let most = if rng.once_in(40) { 60 } else { 10 };
        let count = if tags.is_empty() {
            0
        } else {
            rng.range(0, most)
        };
        let rows: Vec<Vec<u8>> = (0..count)
            .map(|_| row(*rng.pick(&tags), self.width, rng))
            .collect();
        let first = self.hidden_rows(rng);
        let second = match rng.index(8) {
            0 => first.clone(),
            _ => self.hidden_rows(rng),
        };
        self.tables = [first, second].map(|hidden| mixed(&rows, hidden, rng));
        for table in &self.tables {
            assert_eq!(
                self.list(table),
                rows,
                "the tables agree in what is readable"
            );
        }
    }

    fn hidden_rows(&self, rng: &mut Rng) -> Vec<Vec<u8>> {
        let count = match rng.index(40) {
            0..=3 => 0,
            4 => rng.range(50, 200),
            _ => rng.range(1, 12),
        };
        (0..count)
            .map(|_| row(self.hidden_tag(rng), self.width, rng))
            .collect()
    }

    /// 0, an unknown tag, or one that isn't readable at the maximum.
    fn hidden_tag(&self, rng: &mut Rng) -> u32 {
        let known: Vec<u32> = self.policy.labels.iter().map(|label| label.tag).collect();
        let is_hidden = |tag: &&u32| !self.readable.contains(tag);
        let hidden: Vec<u32> = known.iter().filter(is_hidden).copied().collect();
        loop {
            let tag = match rng.index(8) {
                0 => 0,
                1 => rng.with_ends(100_000_000, u32::MAX as usize) as u32,
                2 => rng.with_ends(1, 99_999_999) as u32,
                3 if !known.is_empty() => rng.pick(&known) ^ 1 << rng.index(32),
                _ if !hidden.is_empty() => *rng.pick(&hidden),
                _ => 0,
            };
            if !self.readable.contains(&tag) {
                return tag;
            }
        }
    }

    /// Whether a row isn't readable at the maximum.
    pub fn is_hidden(&self, row: &[u8]) -> bool {
        !self.readable.contains(&tag(row))
    }

    /// The bit of a row's label in a map that has one for each label, if the tag is known.
    pub fn bit_of(&self, row: &[u8], map: &[u8]) -> Option<bool> {
        let mut labels = self.policy.labels.iter();
        let place = labels.position(|label| label.tag == tag(row))?;
        Some(bit(map, place))
    }

    /// The list of the rows that are readable at the maximum.
    pub fn list<'a>(&self, table: &'a [u8]) -> Vec<&'a [u8]> {
        let rows = table.chunks(self.width);
        rows.filter(|row| !self.is_hidden(row)).collect()
    }

    /// How many rows of each table are hidden.
    pub fn hidden(&self) -> [usize; 2] {
        let rows = |table: &Vec<u8>| table.len() / self.width - self.list(table).len();
        self.tables.each_ref().map(rows)
    }
}

/// A policy with users, one of whom has lost READ and FULL.
fn policy_and_user(variant: Variant, rng: &mut Rng) -> (Policy, usize) {
    loop {
        let mut policy = policy(variant, rng);
        if let Some(user) = rng.place(0, policy.users.len()) {
            policy.users[user].privileges &= !SEES_ALL;
            return (policy, user);
        }
    }
}

/// The user sees no unknown tag, so known ones are all there are to ask.
fn readable(policy: &Policy, image: &[u8], user: usize) -> BTreeSet<u32> {
    let image = accepted(image).expect("the policy is well-formed");
    let is_readable = |tag: &u32| may_read_at_maximum(&image, user, *tag);
    assert!(!is_readable(&0) && !is_readable(&u32::MAX));
    let tags = policy.labels.iter().map(|label| label.tag);
    tags.filter(is_readable).collect()
}

fn tag(row: &[u8]) -> u32 {
    let tag = row[..4].iter().rev();
    tag.fold(0, |tag, &byte| tag << 8 | u32::from(byte))
}

fn any_width(rng: &mut Rng) -> usize {
    match rng.index(4) {
        0 => rng.with_ends(5, 512),
        _ => rng.range(5, 24),
    }
}

/// The rows in their order, with the hidden ones at any places between them.
fn mixed(rows: &[Vec<u8>], hidden: Vec<Vec<u8>>, rng: &mut Rng) -> Vec<u8> {
    let mut rows = rows.to_vec();
    for row in hidden {
        rows.insert(rng.range(0, rows.len()), row);
    }
    rows.concat()
}
