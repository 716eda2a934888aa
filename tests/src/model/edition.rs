//! What differs between the editions of an image, as values: document 01 has edition 1, request R-11 of
//! document 02 adds edition 2, and request R-12 takes COMPACCESS from it.

use std::ops::Range;

/// The records of a kind: the bytes of one, and how many a block holds.
#[derive(Clone, Copy, Debug, PartialEq, Eq)]
pub struct Records {
    pub size: usize,
    pub in_block: usize,
}

#[derive(Debug, PartialEq, Eq)]
pub struct Edition {
    pub number: u8,
    /// How many groups, labels and users there may be.
    pub groups: usize,
    pub labels: usize,
    pub users: usize,
    /// The bytes of the header that hold the number of groups.
    pub group_count: Range<usize>,
    /// The bytes of a component's record that hold its parent, and what they hold for none.
    pub parent: Range<usize>,
    pub no_parent: usize,
    pub label_records: Records,
    pub user_records: Records,
    /// The bytes of a set of groups in a record.
    pub group_set: usize,
    /// The privilege bits that a user may hold.
    pub privileges: u8,
    /// How many bytes a label text may have.
    pub longest_text: usize,
    /// Whether READ and FULL see tag 0 and unknown tags.
    pub shows_unknown: bool,
}

pub static ONE: Edition = Edition {
    number: 1,
    groups: 64,
    labels: 1_680,
    users: 96,
    group_count: 7..8,
    parent: 34..35,
    no_parent: 255,
    label_records: Records {
        size: 24,
        in_block: 21,
    },
    user_records: Records {
        size: 128,
        in_block: 3,
    },
    group_set: 8,
    privileges: 127,
    longest_text: 4_096,
    shows_unknown: true,
};

pub static TWO: Edition = Edition {
    number: 2,
    groups: 256,
    labels: 800,
    users: 32,
    group_count: 14..16,
    parent: 34..36,
    no_parent: 65_535,
    label_records: Records {
        size: 48,
        in_block: 10,
    },
    user_records: Records {
        size: 200,
        in_block: 2,
    },
    group_set: 32,
    privileges: 127 - 4,
    longest_text: 10_000,
    shows_unknown: false,
};

/// The edition of a number, if there is one.
pub fn edition(number: u8) -> Option<&'static Edition> {
    [&ONE, &TWO].into_iter().find(|it| it.number == number)
}
