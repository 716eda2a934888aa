//! An image under damage, with the policy that it was made from.

use crate::builder::layout::{seal, RecordAt, BLOCK};
use crate::builder::{put, to_image, Edition, Policy};
use crate::model::{Fault, Kind, Refusal};
use std::ops::Range;

/// What a damaged image is refused with, if it was well-formed before.
#[derive(Clone, Copy, Debug, PartialEq, Eq)]
pub enum Expected {
    /// By 1 or 2.
    Refused(Refusal),
    /// By 31 to 35.
    Fault(Fault),
}

impl Expected {
    pub fn refusal(self) -> Refusal {
        match self {
            Expected::Refused(refusal) => refusal,
            Expected::Fault(fault) => fault.refusal(),
        }
    }

    pub fn length() -> Option<Expected> {
        Some(Expected::Refused(Refusal::Length))
    }

    pub fn unsound(block: usize) -> Option<Expected> {
        Some(Expected::Refused(Refusal::Block(block)))
    }

    pub fn layout(block: usize) -> Option<Expected> {
        Some(Expected::Fault(Fault::Layout { block }))
    }

    pub fn record(at: RecordAt) -> Option<Expected> {
        let kind = match at.kind {
            67 => Kind::Component,
            76 => Kind::Label,
            _ => Kind::User,
        };
        Some(Expected::Fault(Fault::Record {
            kind,
            block: at.block,
            record: at.record,
        }))
    }

    pub fn ring(group: usize) -> Option<Expected> {
        Some(Expected::Fault(Fault::Ring { group }))
    }

    pub fn below(at: RecordAt) -> Option<Expected> {
        let RecordAt { block, record, .. } = at;
        Some(Expected::Fault(Fault::Below { block, record }))
    }
}

/// Several kinds of damage may be done to one draft. An earlier one may have cut the image, so
/// writing outside it is left undone.
pub struct Draft {
    pub policy: Policy,
    pub image: Vec<u8>,
}

impl Draft {
    pub fn new(policy: Policy) -> Draft {
        let image = to_image(&policy);
        Draft { policy, image }
    }

    /// Makes the image anew from the policy, as it now is.
    pub fn rebuild(&mut self) {
        self.image = to_image(&self.policy);
    }

    pub fn edition(&self) -> Edition {
        self.policy.edition
    }

    pub fn blocks(&self) -> usize {
        self.image.len() / BLOCK
    }

    /// A byte of the image, or 0 outside it.
    pub fn get(&self, at: usize) -> u8 {
        self.image.get(at).copied().unwrap_or(0)
    }

    /// Writes bytes without mending a check.
    pub fn put(&mut self, at: usize, bytes: &[u8]) {
        if let Some(part) = self.image.get_mut(at..at + bytes.len()) {
            part.copy_from_slice(bytes);
        }
    }

    /// Writes bytes that lie in one block and mends the block's check.
    pub fn write(&mut self, at: usize, bytes: &[u8]) {
        self.put(at, bytes);
        seal(&mut self.image, at / BLOCK);
    }

    /// Writes a number into bytes that lie in one block and mends the block's check.
    pub fn write_number(&mut self, at: Range<usize>, number: usize) {
        let mut bytes = vec![0; at.len()];
        put(&mut bytes, number);
        self.write(at.start, &bytes);
    }

    /// Writes the parent of a component, which is a group's place or the number for none.
    pub fn write_parent(&mut self, at: RecordAt, parent: usize) {
        let bytes = self.edition().parent();
        self.write_number(at.offset + bytes.start..at.offset + bytes.end, parent);
    }

    /// The same with a parent by which the component breaks a rule.
    pub fn break_parent(&mut self, at: RecordAt, parent: usize) -> Option<Expected> {
        self.write_parent(at, parent);
        Expected::record(at)
    }

    /// Writes bytes of a record, from its byte `byte` on, by which it breaks a rule of its kind.
    pub fn break_record(&mut self, at: RecordAt, byte: usize, bytes: &[u8]) -> Option<Expected> {
        self.write(at.offset + byte, bytes);
        Expected::record(at)
    }

    /// Adds a block of the given kind without records, with the place and check that it needs.
    pub fn push_block(&mut self, kind: u8) {
        let block = self.blocks();
        self.image.resize((block + 1) * BLOCK, 0);
        let place = (block as u16).to_le_bytes();
        self.write(block * BLOCK, &[kind, 0, place[0], place[1]]);
    }
}
