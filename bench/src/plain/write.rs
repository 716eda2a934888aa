//! An image of edition 1 written from records, and taken apart into them. All records are looked at before a byte is
//! written.

use super::counts::Counts;
use super::groups::{first_ring, Ancestors};
use super::policy::Policy;
use super::quick;
use super::records::{component_holds, label_holds, user_holds, Before};
use super::sums::sums;
use super::{Block, BLOCK};
use brawnesk_tests::model::{Kind, Lent, Refusal};
use std::iter::once;

/// What is lent, as records of each kind.
struct Lists<'a> {
    counts: Counts,
    components: &'a [[u8; 40]],
    labels: &'a [[u8; 24]],
    users: &'a [[u8; 128]],
}

/// Writes the image to the front of the buffer and gives its length.
pub fn write(lent: &Lent, buffer: &mut [u8]) -> Result<usize, Refusal> {
    let lists = Lists::new(lent).ok_or(Refusal::Layout)?;
    if !lists.are_fine() {
        return Err(lists.first_fault().expect("something is wrong"));
    }
    let length = lists.counts.blocks() * BLOCK;
    let front = buffer.get_mut(..length).ok_or(Refusal::Room)?;
    lists.lay_out(front.as_chunks_mut().0);
    Ok(length)
}

/// Writes the records of a kind to the front of the buffer and gives their length.
pub fn take_apart(policy: &Policy, kind: Kind, buffer: &mut [u8]) -> Result<usize, Refusal> {
    let counts = &policy.counts;
    let (first, count, size, in_block) = match kind {
        Kind::Component => (1, counts.components(), 40, 12),
        Kind::Label => (counts.first_label(), counts.labels, 24, 21),
        Kind::User => (counts.first_user(), counts.users, 128, 3),
    };
    let front = buffer.get_mut(..count * size).ok_or(Refusal::Room)?;
    let blocks = &policy.blocks[first..];
    for (records, block) in front.chunks_mut(in_block * size).zip(blocks) {
        records.copy_from_slice(&block[4..][..records.len()]);
    }
    Ok(count * size)
}

impl<'a> Lists<'a> {
    /// Nothing for another edition or profile, for lists that aren't whole records, and for counts outside their
    /// limits. A class has as many records as name it.
    fn new(lent: &Lent<'a>) -> Option<Lists<'a>> {
        let [components, labels, users] = lent.lists;
        let components = whole(components)?;
        let (labels, users) = (whole(labels)?, whole(users)?);
        let of_class = |class: u8| components.iter().filter(|it| it[0] == class).count();
        let counts = Counts {
            levels: of_class(1),
            compartments: of_class(2),
            groups: of_class(3),
            users: users.len(),
            labels: labels.len(),
        };
        let holds = lent.edition == 1 && lent.profile == 0 && counts.in_limits();
        holds.then_some(Lists {
            counts,
            components,
            labels,
            users,
        })
    }

    /// Whether all records keep their rules. Where a component has a class that there isn't, there are more than the
    /// counts tell.
    fn are_fine(&self) -> bool {
        let counts = &self.counts;
        let slices = |first: usize, count: usize| once(&self.components[first..][..count]);
        let ancestors = quick::ancestors(counts, slices);
        let ancestors = ancestors.filter(|_| self.components.len() == counts.components());
        quick::labels_are_fine(once(self.labels), counts)
            && ancestors.is_some_and(|it| quick::users_are_fine(once(self.users), counts, &it))
    }

    #[cold]
    fn first_fault(&self) -> Option<Refusal> {
        let component = self.component_fault();
        let component = component.map(|place| at_fault(Kind::Component, place));
        let label = || self.label_fault().map(|place| at_fault(Kind::Label, place));
        let user = || self.user_fault().map(|place| at_fault(Kind::User, place));
        let in_order = component.or_else(label).or_else(user);
        in_order.or_else(|| self.group_fault())
    }

    fn component_fault(&self) -> Option<usize> {
        let mut before = Before::new();
        let mut records = self.components.iter().enumerate();
        records
            .position(|(place, record)| !component_holds(record, place, &self.counts, &mut before))
    }

    fn label_fault(&self) -> Option<usize> {
        let mut before = 0;
        let mut records = self.labels.iter();
        records.position(|record| !label_holds(record, &self.counts, &mut before))
    }

    fn user_fault(&self) -> Option<usize> {
        let mut before: &[u8] = &[];
        for (place, record) in self.users.iter().enumerate() {
            if !user_holds(record, &self.counts, before) {
                return Some(place);
            }
            before = &record[1..][..usize::from(record[0])];
        }
        None
    }

    /// A ring of parents, or a user who breaks a rule by below.
    fn group_fault(&self) -> Option<Refusal> {
        let mut parents = [255; 64];
        let groups = &self.components[self.counts.first_group()..];
        for (parent, group) in parents.iter_mut().zip(groups) {
            *parent = group[34];
        }
        let Some(ancestors) = Ancestors::new(&parents, groups.len()) else {
            return first_ring(&parents, groups.len()).map(Refusal::Ring);
        };
        let mut users = self.users.iter();
        let broken = users.position(|user| !ancestors.user_holds(user));
        broken.map(|place| at_fault(Kind::User, place))
    }

    /// To as many blocks as the counts need.
    fn lay_out(&self, blocks: &mut [Block]) {
        let (header, rest) = blocks.split_at_mut(1);
        self.counts.write(&mut header[0]);
        let (components, rest) = rest.split_at_mut(self.components.len().div_ceil(12));
        let (labels, users) = rest.split_at_mut(self.labels.len().div_ceil(21));
        fill(components, 67, 12, self.components);
        fill(labels, 76, 21, self.labels);
        fill(users, 85, 3, self.users);
        for (place, block) in blocks.iter_mut().enumerate() {
            block[2..4].copy_from_slice(&(place as u16).to_le_bytes());
            let sums = sums(block);
            block[510..].copy_from_slice(&sums);
        }
    }
}

fn at_fault(kind: Kind, place: usize) -> Refusal {
    Refusal::Lent { kind, place }
}

/// The records of a list, if it is whole records.
fn whole<const SIZE: usize>(list: &[u8]) -> Option<&[[u8; SIZE]]> {
    let (records, rest) = list.as_chunks();
    rest.is_empty().then_some(records)
}

/// The blocks of a kind without their places and checks.
fn fill<const SIZE: usize>(
    blocks: &mut [Block],
    kind: u8,
    in_block: usize,
    records: &[[u8; SIZE]],
) {
    for (block, records) in blocks.iter_mut().zip(records.chunks(in_block)) {
        let bytes = records.as_flattened();
        block[0] = kind;
        block[1] = records.len() as u8;
        block[4..][..bytes.len()].copy_from_slice(bytes);
        block[4 + bytes.len()..].fill(0);
    }
}
