//! The first fault of an image that isn't accepted, in the order of request R-2. It is sought record by record, with no
//! thought for speed.

use super::counts::Counts;
use super::groups::first_ring;
use super::records::{component_holds, label_holds, user_holds, Before};
use super::{all_zero, Ancestors, Block};
use brawnesk_tests::model::{Kind, Refusal};

/// Where neither 1 nor 2 refuses the image and its header is right: one of 31 to 35.
#[cold]
pub fn first_fault(blocks: &[Block], counts: &Counts) -> Option<Refusal> {
    let in_order = component_fault(blocks, counts)
        .or_else(|| label_fault(blocks, counts))
        .or_else(|| user_fault(blocks, counts));
    in_order.or_else(|| group_fault(blocks, counts))
}

/// The records of a block of the right kind and count, with zeros after them.
fn records<const SIZE: usize>(block: &Block, kind: u8, count: usize) -> Option<&[[u8; SIZE]]> {
    let (records, rest) = block[4..510].split_at(count * SIZE);
    let holds = block[0] == kind && usize::from(block[1]) == count && all_zero(rest);
    holds.then_some(records.as_chunks().0)
}

fn component_fault(blocks: &[Block], counts: &Counts) -> Option<Refusal> {
    let total = counts.components();
    let mut before = Before::new();
    for (at, first) in (0..total).step_by(12).enumerate() {
        let block = at + 1;
        let Some(records) = records(&blocks[block], 67, (total - first).min(12)) else {
            return Some(Refusal::Layout);
        };
        for (record, bytes) in records.iter().enumerate() {
            if !component_holds(bytes, first + record, counts, &mut before) {
                return Some(at_fault(Kind::Component, block, record));
            }
        }
    }
    None
}

fn label_fault(blocks: &[Block], counts: &Counts) -> Option<Refusal> {
    let mut before = 0;
    for (at, first) in (0..counts.labels).step_by(21).enumerate() {
        let block = counts.first_label() + at;
        let Some(records) = records(&blocks[block], 76, (counts.labels - first).min(21)) else {
            return Some(Refusal::Layout);
        };
        for (record, bytes) in records.iter().enumerate() {
            if !label_holds(bytes, counts, &mut before) {
                return Some(at_fault(Kind::Label, block, record));
            }
        }
    }
    None
}

fn user_fault(blocks: &[Block], counts: &Counts) -> Option<Refusal> {
    let mut before: &[u8] = &[];
    for (at, first) in (0..counts.users).step_by(3).enumerate() {
        let block = counts.first_user() + at;
        let Some(records) = records(&blocks[block], 85, (counts.users - first).min(3)) else {
            return Some(Refusal::Layout);
        };
        for (record, bytes) in records.iter().enumerate() {
            if !user_holds(bytes, counts, before) {
                return Some(at_fault(Kind::User, block, record));
            }
            before = &bytes[1..][..usize::from(bytes[0])];
        }
    }
    None
}

/// A ring of parents, or a user who breaks a rule by below.
fn group_fault(blocks: &[Block], counts: &Counts) -> Option<Refusal> {
    let parents = parents(blocks, counts);
    let Some(ancestors) = Ancestors::new(&parents, counts.groups) else {
        return first_ring(&parents, counts.groups).map(Refusal::Ring);
    };
    let broken = (0..counts.users).find(|user| {
        let block = &blocks[counts.first_user() + user / 3];
        !ancestors.user_holds(block[4 + user % 3 * 128..][..128].try_into().unwrap())
    });
    broken.map(|user| at_fault(Kind::User, counts.first_user() + user / 3, user % 3))
}

fn parents(blocks: &[Block], counts: &Counts) -> [u8; 64] {
    let mut parents = [255; 64];
    for (group, parent) in parents[..counts.groups].iter_mut().enumerate() {
        let place = counts.first_group() + group;
        *parent = blocks[1 + place / 12][4 + place % 12 * 40 + 34];
    }
    parents
}

fn at_fault(kind: Kind, block: usize, record: usize) -> Refusal {
    Refusal::Record {
        kind,
        block,
        record,
    }
}
