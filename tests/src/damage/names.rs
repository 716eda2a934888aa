//! Damage to the name of a component (32 at its record) or of a user (34).

use super::{components, users, Draft, Expected};
use crate::builder::layout::RecordAt;
use crate::rng::Rng;

/// The bytes of a name's alphabet have these beside them.
const BAD_BYTES: &[u8] = b"az@[/:`^ ,-.\0\xff\xc1";

/// Chooses a record, and tells the byte in it that holds the name's length. The name follows.
pub type Whose = fn(&Draft, &mut Rng) -> Option<(RecordAt, usize)>;

pub fn component(draft: &Draft, rng: &mut Rng) -> Option<(RecordAt, usize)> {
    Some((components::any(draft, rng)?, 1))
}

pub fn user(draft: &Draft, rng: &mut Rng) -> Option<(RecordAt, usize)> {
    Some((users::any(draft, rng)?, 0))
}

pub fn empty(draft: &mut Draft, rng: &mut Rng, whose: Whose) -> Option<Expected> {
    let (at, byte) = whose(draft, rng)?;
    draft.break_record(at, byte, &[0; 31])
}

pub fn long(draft: &mut Draft, rng: &mut Rng, whose: Whose) -> Option<Expected> {
    let (at, byte) = whose(draft, rng)?;
    let length = *rng.pick(&[31, 31, 32, 38, 127, 128, 255]);
    draft.put(at.offset + byte + 1, &[b'N'; 30]);
    draft.break_record(at, byte, &[length])
}

pub fn bad_byte(draft: &mut Draft, rng: &mut Rng, whose: Whose) -> Option<Expected> {
    let (at, byte) = whose(draft, rng)?;
    let length = draft.get(at.offset + byte).max(1);
    let byte = byte + 1 + rng.index(usize::from(length));
    draft.break_record(at, byte, &[*rng.pick(BAD_BYTES)])
}

/// The name in small letters, or one letter of it. Label text may have them, and images have not.
pub fn small(draft: &mut Draft, rng: &mut Rng, whose: Whose) -> Option<Expected> {
    let (at, byte) = whose(draft, rng)?;
    let length = usize::from(draft.get(at.offset + byte)).min(30);
    let from = byte + 1;
    let name: Vec<u8> = (from..from + length)
        .map(|byte| draft.get(at.offset + byte))
        .collect();
    let letters: Vec<usize> = (0..length)
        .filter(|&it| name[it].is_ascii_uppercase())
        .collect();
    let one = *letters.get(rng.place(0, letters.len())?)?;
    match rng.once_in(2) {
        true => draft.break_record(at, from, &name.to_ascii_lowercase()),
        false => draft.break_record(at, from + one, &[name[one].to_ascii_lowercase()]),
    }
}

/// A byte that isn't zero after the name.
pub fn rest(draft: &mut Draft, rng: &mut Rng, whose: Whose) -> Option<Expected> {
    let (at, byte) = whose(draft, rng)?;
    let length = usize::from(draft.get(at.offset + byte));
    if length >= 30 {
        return None;
    }
    let byte = rng.with_ends(byte + 1 + length, byte + 30);
    let value = if rng.once_in(2) { b'A' } else { rng.nonzero() };
    draft.break_record(at, byte, &[value])
}
