//! What an image holds, taken apart: its counts and its records, and the numbers and sets in them.

use super::counts::{Counts, Run};
use super::edition::Edition;
use super::groups::subgroups;
use super::places::Places;
use super::profile::Profile;
use std::ops::Range;

pub const BLOCK: usize = 512;

/// Where records stand.
#[derive(Clone, Copy)]
enum Stand<'a> {
    /// In the blocks of an image.
    Blocks(&'a [u8]),
    /// In a list for each kind, one after another, as the writer of request R-1 is lent them.
    Lists([&'a [u8]; 3]),
}

/// Counts in their limits, and at least as many records: those of an image whose header keeps its rules and
/// whose length fits the counts, or records that an image is to be made from.
pub struct Image<'a> {
    stand: Stand<'a>,
    pub counts: Counts,
    /// For each group those right under it.
    pub subgroups: Vec<Vec<usize>>,
}

impl Image<'_> {
    pub(super) fn read(bytes: &[u8]) -> Option<Image<'_>> {
        let counts = Counts::read(bytes.get(..BLOCK)?)?;
        let fits = bytes.len() == counts.users().end() * BLOCK;
        fits.then(|| Image::new(Stand::Blocks(bytes), counts))
    }

    /// The records of components, of labels and of users.
    pub(super) fn of_lists(counts: Counts, lists: [&[u8]; 3]) -> Image<'_> {
        Image::new(Stand::Lists(lists), counts)
    }

    fn new(stand: Stand<'_>, counts: Counts) -> Image<'_> {
        let mut image = Image {
            stand,
            counts,
            subgroups: Vec::new(),
        };
        image.subgroups = subgroups(&image);
        image
    }

    pub fn edition(&self) -> &'static Edition {
        self.counts.edition
    }

    pub fn profile(&self) -> Profile {
        self.counts.profile
    }

    pub fn block(&self, place: usize) -> &[u8] {
        match self.stand {
            Stand::Blocks(bytes) => &bytes[place * BLOCK..][..BLOCK],
            Stand::Lists(_) => panic!("lists of records have no blocks"),
        }
    }

    fn record(&self, run: &Run, place: usize) -> &[u8] {
        let size = run.records.size;
        match self.stand {
            Stand::Blocks(bytes) => &bytes[run.offset(place)..][..size],
            Stand::Lists(lists) => &lists[run.kind as usize][place * size..][..size],
        }
    }

    pub fn component(&self, place: usize) -> &[u8] {
        self.record(&self.counts.components(), place)
    }

    /// The record of the group at a place among groups.
    pub fn group(&self, place: usize) -> &[u8] {
        self.component(self.counts.levels + self.counts.compartments + place)
    }

    pub fn label(&self, place: usize) -> &[u8] {
        self.record(&self.counts.labels(), place)
    }

    pub fn user(&self, place: usize) -> &[u8] {
        self.record(&self.counts.users(), place)
    }

    /// What a component's record holds as its parent.
    pub fn parent(&self, component: &[u8]) -> usize {
        number_at(component, &self.edition().parent)
    }

    /// The groups of a label's record.
    pub fn label_groups(&self, label: &[u8]) -> Places {
        set_at(label, 16, self.edition().group_set)
    }

    /// The four group sets of a user's record: read, write, default, row.
    pub fn user_groups(&self, user: &[u8]) -> [Places; 4] {
        sets_at(user, 72, self.edition().group_set)
    }
}

/// The number of some bytes. All numbers are little-endian.
pub fn number_at(bytes: &[u8], at: &Range<usize>) -> usize {
    let bytes = bytes[at.clone()].iter().rev();
    bytes.fold(0, |number, &byte| 256 * number + usize::from(byte))
}

pub fn u16_at(bytes: &[u8], at: usize) -> usize {
    usize::from(bytes[at]) + 256 * usize::from(bytes[at + 1])
}

pub fn u32_at(bytes: &[u8], at: usize) -> usize {
    u16_at(bytes, at) + 65_536 * u16_at(bytes, at + 2)
}

/// A set of so many bytes: bit p of its number for place p.
pub fn set_at(bytes: &[u8], at: usize, size: usize) -> Places {
    let mut set = [0; 32];
    set[..size].copy_from_slice(&bytes[at..at + size]);
    Places::read(&set)
}

/// Four sets in a row: read, write, default, row.
pub fn sets_at(bytes: &[u8], at: usize, size: usize) -> [Places; 4] {
    [0, 1, 2, 3].map(|step| set_at(bytes, at + step * size, size))
}

/// The bytes of a set of compartments.
pub const COMPARTMENT_SET: usize = 8;
