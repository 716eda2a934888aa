//! The parts of a session in its bytes.

use crate::builder::{Label, Set};
use crate::ffi::{LABEL, SESSION};
use crate::rng::Rng;

/// Where the session label and the row label begin in a session.
pub const LABEL_AT: usize = 8;
pub const ROW_AT: usize = 56;

/// Any bytes where none is looked at.
pub fn spoil_unused(session: &mut [u8; SESSION], rng: &mut Rng) {
    session[2..LABEL_AT].fill_with(|| rng.byte());
    for label in [LABEL_AT, ROW_AT] {
        session[label..label + 4].fill_with(|| rng.byte());
        session[label + 5..label + 8].fill_with(|| rng.byte());
    }
}

/// The label at an offset of a session.
pub fn label_at(session: &[u8; SESSION], at: usize) -> Label {
    let mut bytes = [0; LABEL];
    bytes.copy_from_slice(&session[at..at + LABEL]);
    label_of(&bytes)
}

/// The label of its bytes. Its tag is 0.
pub fn label_of(bytes: &[u8; LABEL]) -> Label {
    Label {
        tag: 0,
        level: bytes[4],
        compartments: Set::from_bytes(&bytes[8..16]),
        groups: Set::from_bytes(&bytes[16..]),
    }
}

/// Adds a place to the set that begins at an offset.
pub fn set_bit(session: &mut [u8; SESSION], at: usize, place: usize) {
    session[at + place / 8] |= 1 << (place % 8);
}
