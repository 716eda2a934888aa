//! A label, and the 48 bytes that stand for it in the C functions.

use super::layout::{set_at, COMPARTMENT_SET};
use super::places::Places;

/// The bytes of a label.
pub const LABEL: usize = 48;

/// A level's place and two sets of places, which may be past what a policy has.
#[derive(Clone, Debug, PartialEq, Eq)]
pub struct Label {
    pub level: usize,
    pub compartments: Places,
    pub groups: Places,
}

impl Label {
    /// Byte 4 is the level, 8..15 are the compartments and 16..47 the groups, bit p for place p. The
    /// other bytes are not looked at.
    pub fn read(bytes: &[u8; LABEL]) -> Label {
        Label {
            level: usize::from(bytes[4]),
            compartments: set_at(bytes, 8, COMPARTMENT_SET),
            groups: set_at(bytes, 16, LABEL - 16),
        }
    }

    /// The other bytes are zero.
    pub fn to_bytes(&self) -> [u8; LABEL] {
        let mut bytes = [0; LABEL];
        bytes[4] = self.level as u8;
        for place in self.compartments.iter() {
            bytes[8 + place / 8] |= 1 << (place % 8);
        }
        for place in self.groups.iter() {
            bytes[16 + place / 8] |= 1 << (place % 8);
        }
        bytes
    }
}
