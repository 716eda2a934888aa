//! How many records of each kind there are, and where they stand in the blocks of an image.

use super::edition::{edition, Edition, Records};
use super::layout::{number_at, u16_at, BLOCK};
use super::profile::Profile;
use std::iter;

/// Component records, in either edition.
const COMPONENT_RECORDS: Records = Records {
    size: 40,
    in_block: 12,
};

/// The kinds of records, in the order in which they stand.
#[derive(Clone, Copy, Debug, PartialEq, Eq, PartialOrd, Ord)]
pub enum Kind {
    Component,
    Label,
    User,
}

impl Kind {
    pub const ALL: [Kind; 3] = [Kind::Component, Kind::Label, Kind::User];

    pub fn number(self) -> u8 {
        match self {
            Kind::Component => 67,
            Kind::Label => 76,
            Kind::User => 85,
        }
    }
}

/// All records of one kind, `count` of them from block `first` on. Only the last block may be short.
pub struct Run {
    pub kind: Kind,
    pub records: Records,
    pub count: usize,
    pub first: usize,
}

impl Run {
    /// The block after the run's last.
    pub fn end(&self) -> usize {
        self.first + self.count.div_ceil(self.records.in_block)
    }

    /// How many records a block of the run has to hold.
    pub fn records_in(&self, block: usize) -> usize {
        let before = (block - self.first) * self.records.in_block;
        self.records.in_block.min(self.count - before)
    }

    /// The block of the record at a place, and the record's place there.
    pub fn at(&self, place: usize) -> (usize, usize) {
        let in_block = self.records.in_block;
        (self.first + place / in_block, place % in_block)
    }

    /// The offset in the image of the record at a place.
    pub fn offset(&self, place: usize) -> usize {
        let (block, record) = self.at(place);
        block * BLOCK + 4 + record * self.records.size
    }
}

#[derive(Clone, Copy)]
pub struct Counts {
    pub edition: &'static Edition,
    pub profile: Profile,
    pub levels: usize,
    pub compartments: usize,
    pub groups: usize,
    pub(super) users: usize,
    pub(super) labels: usize,
}

impl Counts {
    /// The counts of a header block that keeps the header's rules.
    pub(super) fn read(header: &[u8]) -> Option<Counts> {
        let edition = edition(header[4])?;
        let counts = Counts {
            edition,
            profile: Profile::of(header[12])?,
            levels: usize::from(header[5]),
            compartments: usize::from(header[6]),
            groups: number_at(header, &edition.group_count),
            users: u16_at(header, 8),
            labels: u16_at(header, 10),
        };
        let is_header = header[0] == 80 && header[1] == 0;
        let mut unused = unused_in_header(edition);
        (is_header && counts.in_limits() && unused.all(|at| header[at] == 0)).then_some(counts)
    }

    pub(super) fn in_limits(&self) -> bool {
        (1..=32).contains(&self.levels)
            && self.compartments <= 64
            && self.groups <= self.edition.groups
            && self.users <= self.edition.users
            && self.labels <= self.edition.labels
    }

    /// Of a class: the place of its first component among all components, and its count.
    pub fn class(&self, class: u8) -> Option<(usize, usize)> {
        match class {
            1 => Some((0, self.levels)),
            2 => Some((self.levels, self.compartments)),
            3 => Some((self.levels + self.compartments, self.groups)),
            _ => None,
        }
    }

    /// All records, in the order of their kinds.
    pub fn runs(&self) -> [Run; 3] {
        [self.components(), self.labels(), self.users()]
    }

    pub fn components(&self) -> Run {
        Run {
            kind: Kind::Component,
            records: COMPONENT_RECORDS,
            count: self.levels + self.compartments + self.groups,
            first: 1,
        }
    }

    pub fn labels(&self) -> Run {
        Run {
            kind: Kind::Label,
            records: self.edition.label_records,
            count: self.labels,
            first: self.components().end(),
        }
    }

    pub fn users(&self) -> Run {
        Run {
            kind: Kind::User,
            records: self.edition.user_records,
            count: self.users,
            first: self.labels().end(),
        }
    }
}

/// The bytes of a header, up to its check, that hold nothing: byte 7 and those from 13 on, but for the
/// number of groups.
fn unused_in_header(edition: &Edition) -> impl Iterator<Item = usize> + '_ {
    let bytes = iter::once(7).chain(13..510);
    bytes.filter(|at| !edition.group_count.contains(at))
}
