//! The images whose check costs much: all names have 30 bytes, begin alike and, but for one image, end alike, and the groups that a user may
//! write or open with lie far below those that the user may read. And the calls that are measured on them.

use crate::held::{lines, Held, Line};
use brawnesk_tests::builder::{random_with, Edition, Policy, Rights, Set, Sizes, Tree};
use brawnesk_tests::rng::Rng;

const SEED: u64 = 4;

/// As many of all as an edition may have, and the groups in one chain in which each parent has the next place.
pub fn policy(edition: Edition, name: fn(usize) -> String) -> Policy {
    let mut policy = random_with(
        Tree::ParentHigher,
        Sizes::full(edition),
        &mut Rng::new(SEED),
    );
    let groups = policy.groups.len();
    let classes = [
        &mut policy.levels,
        &mut policy.compartments,
        &mut policy.groups,
    ];
    for class in classes {
        for (place, component) in class.iter_mut().enumerate() {
            component.name = name(place);
        }
    }
    for (place, user) in policy.users.iter_mut().enumerate() {
        user.name = format!("{}{place:03}", "U".repeat(27));
        user.groups = far_below(groups);
    }
    policy
}

/// A name for a place below 343. The first 11 bytes and the last 8 are the same for all. With a, b, c and d as the
/// numbers in its bytes from 0, 8, 16 and 22 on, a + 3 b + 4 (c + 2 d) is the same for all too, so that no filter by
/// this sum tells them apart.
pub fn alike(place: usize) -> String {
    let mut name = [b'A'; 30];
    for (at, digit) in [(11, place % 7), (12, place / 7 % 7), (13, place / 49)] {
        name[at] += 4 * digit as u8;
        name[at + 8] = b'S' - 3 * digit as u8;
    }
    name.map(char::from).iter().collect()
}

/// The same sum, and the first 18 bytes are the same for all; the last 8 differ.
pub fn begin_alike(place: usize) -> String {
    let mut name = [b'A'; 30];
    for (at, digit) in [(18, place % 7), (19, place / 7 % 7), (20, place / 49)] {
        name[at] += 2 * digit as u8;
        name[at + 6] = b'S' - digit as u8;
    }
    name.map(char::from).iter().collect()
}

/// The last group, which has none above it, is read; the upper half is written and opened with, and rows get the lower.
fn far_below(groups: usize) -> Rights {
    let lower = Set::first(groups / 2);
    let upper = Set::first(groups) & !lower;
    Rights {
        read: Set::of(groups - 1),
        write: upper,
        default: upper,
        row: lower,
    }
}

const HELD: [Held; 6] = [
    ("check", None),
    ("parse-longest", Some("check")),
    ("print-longest", Some("check")),
    ("set-label-longest", Some("check")),
    ("may-read-last", Some("check")),
    ("write", Some("check")),
];

pub fn all() -> Vec<Line> {
    let images = ["begin-alike", "worst", "worst-2"].into_iter();
    images.flat_map(|on| lines(&HELD, on)).collect()
}

#[cfg(test)]
mod tests {
    use super::*;
    use std::collections::BTreeSet;

    fn sum(name: &str) -> u64 {
        let number =
            |at: usize| u64::from_le_bytes(name.as_bytes()[at..at + 8].try_into().unwrap());
        let [a, b, c, d] = [0, 8, 16, 22].map(number).map(u128::from);
        (a + 3 * b + 4 * (c + 2 * d)) as u64
    }

    #[test]
    fn names_are_as_told() {
        for (name, alike) in [(alike as fn(usize) -> String, 11), (begin_alike, 18)] {
            let names: BTreeSet<String> = (0..343).map(name).collect();
            let sums: BTreeSet<u64> = names.iter().map(|name| sum(name)).collect();
            assert_eq!((names.len(), sums.len()), (343, 1));
            assert!(names.iter().all(|name| name.len() == 30));
            assert!(names.iter().all(|name| name.starts_with(&"A".repeat(alike))));
        }
    }

    #[test]
    fn versions_agree() {
        for line in all() {
            line.asked.agreed(&line.asked.scene());
        }
    }
}
