//! What differs between the editions of an image (requests of document 02), as values.

use super::layout::{Shape, LABELS_1, LABELS_2, USERS_1, USERS_2};
use super::COMPACCESS;
use std::ops::Range;

#[derive(Clone, Copy, Debug, PartialEq, Eq, PartialOrd, Ord)]
pub enum Edition {
    One,
    Two,
}

impl Edition {
    pub const ALL: [Edition; 2] = [Edition::One, Edition::Two];

    fn pick<T>(self, one: T, two: T) -> T {
        match self {
            Edition::One => one,
            Edition::Two => two,
        }
    }

    /// Byte 4 of the header.
    pub fn number(self) -> u8 {
        self.pick(1, 2)
    }

    pub fn other(self) -> Edition {
        self.pick(Edition::Two, Edition::One)
    }

    /// How many groups there may be.
    pub fn most_groups(self) -> usize {
        self.pick(64, 256)
    }

    pub fn most_users(self) -> usize {
        self.pick(96, 32)
    }

    pub fn most_labels(self) -> usize {
        self.pick(1_680, 800)
    }

    /// How many bytes a label text may have.
    pub fn longest_text(self) -> usize {
        self.pick(4_096, 10_000)
    }

    /// The privileges that a user may hold in the profile that has the most.
    pub fn privileges(self) -> u8 {
        self.pick(127, 127 & !COMPACCESS)
    }

    /// The bytes of the header that hold the number of groups.
    pub fn group_count(self) -> Range<usize> {
        self.pick(7..8, 14..16)
    }

    /// The bytes of a component's record that hold its parent; all bits are set for none.
    pub fn parent(self) -> Range<usize> {
        self.pick(34..35, 34..36)
    }

    /// What the bytes of a parent hold for none.
    pub fn no_parent(self) -> usize {
        self.pick(255, 65_535)
    }

    /// How many bytes a set of groups has.
    pub fn group_set(self) -> usize {
        self.pick(8, 32)
    }

    pub fn labels(self) -> &'static Shape {
        self.pick(&LABELS_1, &LABELS_2)
    }

    pub fn users(self) -> &'static Shape {
        self.pick(&USERS_1, &USERS_2)
    }
}
