//! A label and a session in their bytes.

use super::all_zero;
use super::records::set_at;
use brawnesk_tests::ffi::{LABEL, SESSION};

#[derive(Clone, Copy)]
pub struct Label {
    pub level: u8,
    pub compartments: u64,
    pub groups: u64,
}

impl Label {
    /// The label of a label record. A label by itself stands at the same bytes.
    pub fn of_record(record: &[u8]) -> Label {
        Label {
            level: record[4],
            compartments: set_at(record, 8),
            groups: set_at(record, 16),
        }
    }

    /// Nothing where a group past the first 64 is named.
    pub fn read(bytes: &[u8; LABEL]) -> Option<Label> {
        all_zero(&bytes[24..]).then(|| Label::of_record(bytes))
    }

    pub fn to_bytes(self) -> [u8; LABEL] {
        let mut bytes = [0; LABEL];
        bytes[4] = self.level;
        bytes[8..16].copy_from_slice(&self.compartments.to_le_bytes());
        bytes[16..24].copy_from_slice(&self.groups.to_le_bytes());
        bytes
    }
}

#[derive(Clone, Copy)]
pub struct Session {
    pub user: u8,
    pub label: Label,
    pub row: Label,
}

impl Session {
    /// Nothing where the signed-on user is another, or a group past the first 64 is named.
    pub fn read(bytes: &[u8; SESSION]) -> Option<Session> {
        let label = |at: usize| Label::read(bytes[at..at + LABEL].try_into().unwrap());
        let session = Session {
            user: bytes[0],
            label: label(8)?,
            row: label(56)?,
        };
        (bytes[1] == bytes[0]).then_some(session)
    }

    pub fn to_bytes(self) -> [u8; SESSION] {
        let mut bytes = [0; SESSION];
        bytes[0] = self.user;
        bytes[1] = self.user;
        bytes[8..56].copy_from_slice(&self.label.to_bytes());
        bytes[56..].copy_from_slice(&self.row.to_bytes());
        bytes
    }
}

/// The places of a set, the lowest first.
pub fn places(set: u64) -> impl Iterator<Item = usize> {
    let mut rest = set;
    std::iter::from_fn(move || {
        let place = rest.trailing_zeros() as usize;
        let some = rest != 0;
        rest &= rest.wrapping_sub(1);
        some.then_some(place)
    })
}
