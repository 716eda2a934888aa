//! Look-ups in an accepted image: components by place and by name, users by name.

use super::counts::Counts;
use super::faults::first_fault;
use super::groups::Ancestors;
use super::label::Label;
use super::labels::Labels;
use super::records::set_exists;
use super::{accepted, sound, Block};
use brawnesk_tests::model::Refusal;
use std::cmp::Ordering;

/// An accepted image.
pub struct Policy<'a> {
    pub blocks: &'a [Block],
    pub counts: Counts,
    pub ancestors: Ancestors,
}

#[derive(Clone, Copy)]
pub enum Class {
    Level,
    Compartment,
    Group,
}

/// Where a component's name stands in the image.
pub struct Span {
    pub offset: usize,
    pub length: usize,
}

impl<'a> Policy<'a> {
    pub fn accepted(image: &'a [u8]) -> Result<Policy<'a>, Refusal> {
        let blocks = sound(image)?;
        let counts = Counts::read(blocks).ok_or(Refusal::Layout)?;
        match accepted(blocks, &counts) {
            Some(ancestors) => Ok(Policy {
                blocks,
                counts,
                ancestors,
            }),
            None => Err(first_fault(blocks, &counts).expect("something is wrong")),
        }
    }

    /// The record at a place among all components.
    #[inline(always)]
    pub fn component(&self, place: usize) -> &'a [u8; 40] {
        let records: &[[u8; 40]] = self.blocks[1 + place / 12][4..484].as_chunks().0;
        &records[place % 12]
    }

    pub fn labels(&self) -> Labels<'a> {
        Labels {
            blocks: &self.blocks[self.counts.first_label()..self.counts.first_user()],
            count: self.counts.labels,
        }
    }

    /// The record of a user that there is.
    pub fn user(&self, place: usize) -> &'a [u8] {
        &self.blocks[self.counts.first_user() + place / 3][4 + place % 3 * 128..][..128]
    }

    /// Of a class: the place of its first component among all components, and its count.
    pub fn class(&self, class: Class) -> (usize, usize) {
        let counts = &self.counts;
        match class {
            Class::Level => (0, counts.levels),
            Class::Compartment => (counts.levels, counts.compartments),
            Class::Group => (counts.levels + counts.compartments, counts.groups),
        }
    }

    /// The name of a component that there is.
    pub fn name(&self, class: Class, place: usize) -> &'a [u8] {
        named(self.component(self.class(class).0 + place), 1)
    }

    pub fn span(&self, class: Class, place: usize) -> Option<Span> {
        let (first, count) = self.class(class);
        let at = first + place;
        (place < count).then(|| Span {
            offset: (1 + at / 12) * 512 + 4 + at % 12 * 40 + 2,
            length: self.name(class, place).len(),
        })
    }

    /// Whether there is all that the label names.
    pub fn has(&self, label: &Label) -> bool {
        usize::from(label.level) < self.counts.levels
            && set_exists(label.compartments, self.counts.compartments)
            && set_exists(label.groups, self.counts.groups)
    }

    /// The place of the user of a name. Names rise, so the range is halved.
    pub fn user_named(&self, name: &[u8]) -> Option<usize> {
        let (mut low, mut high) = (0, self.counts.users);
        while low < high {
            let middle = (low + high) / 2;
            match named(self.user(middle), 0).cmp(name) {
                Ordering::Less => low = middle + 1,
                Ordering::Greater => high = middle,
                Ordering::Equal => return Some(middle),
            }
        }
        None
    }
}

/// The name whose length stands at `at`, right before it.
fn named(record: &[u8], at: usize) -> &[u8] {
    &record[at + 1..][..usize::from(record[at])]
}
