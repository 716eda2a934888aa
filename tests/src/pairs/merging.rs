//! Two labels and merge letters. No policy is asked, so any places will do.

use crate::builder::Set;
use crate::calls::{Pair, PairCall};
use crate::ffi::LABEL;
use crate::rng::Rng;

/// Two labels, the second often made from the first. Bytes that are not looked at hold anything.
pub fn pair(rng: &mut Rng) -> Pair {
    let first = Places::any(rng);
    let mut second = first.clone();
    for _ in 0..rng.range(0, 3) {
        second.change(rng);
    }
    if rng.once_in(8) {
        second = Places::any(rng);
    }
    let mut pair = [first, second].map(|places| places.to_bytes(rng));
    if rng.once_in(2) {
        pair.reverse();
    }
    pair
}

/// Level, compartments and groups as numbers.
#[derive(Clone)]
struct Places {
    level: u8,
    compartments: Set,
    groups: Set,
}

impl Places {
    fn any(rng: &mut Rng) -> Places {
        Places {
            level: level(rng),
            compartments: rng.subset(Set::first(64)),
            groups: rng.subset(Set::ALL),
        }
    }

    /// One change; sets lose places, win places, or are others.
    fn change(&mut self, rng: &mut Rng) {
        match rng.index(8) {
            0 => self.level = level(rng),
            1 => self.level = self.level.wrapping_sub(1),
            2 | 3 => self.compartments = rng.subset(self.compartments),
            4 => self.compartments |= Set::of(rng.index(64)),
            5 => self.groups = rng.subset(self.groups),
            6 => self.groups |= Set::of(rng.index(Set::PLACES)),
            _ => self.groups = !self.groups & rng.subset(Set::ALL),
        }
    }

    fn to_bytes(&self, rng: &mut Rng) -> [u8; LABEL] {
        let mut bytes = [0; LABEL];
        if rng.once_in(2) {
            bytes = bytes.map(|_| rng.byte());
        }
        bytes[4] = self.level;
        bytes[8..16].copy_from_slice(&self.compartments.to_bytes()[..8]);
        bytes[16..].copy_from_slice(&self.groups.to_bytes());
        bytes
    }
}

fn level(rng: &mut Rng) -> u8 {
    match rng.once_in(2) {
        true => rng.index(4) as u8,
        false => rng.byte(),
    }
}

/// All 32 letter triples.
pub fn triples() -> Vec<Vec<u8>> {
    let mut triples = Vec::new();
    for level in *b"HL" {
        for compartments in *b"UIMN" {
            for groups in *b"UIMN" {
                triples.push(vec![level, compartments, groups]);
            }
        }
    }
    triples
}

/// Letters that mostly aren't allowed: a triple with another byte, with a small letter, in another
/// order, too short or too long; at times random bytes.
fn letters(rng: &mut Rng) -> Vec<u8> {
    let mut letters = rng.pick(&triples()).clone();
    let at = rng.index(3);
    match rng.index(8) {
        0 => letters[at] = rng.byte(),
        1 => letters[at] = *rng.pick(b"HLUIMN"),
        2 => letters[at].make_ascii_lowercase(),
        3 => letters.make_ascii_lowercase(),
        4 => letters.reverse(),
        5 => letters.truncate(at),
        6 => letters.extend(b"UN".iter().take(rng.range(1, 2))),
        _ => letters = (0..rng.range(0, 5)).map(|_| rng.byte()).collect(),
    }
    letters
}

/// All triples and as many other letters.
pub fn merges(rng: &mut Rng) -> Vec<PairCall> {
    let triples = triples();
    let others: Vec<Vec<u8>> = triples.iter().map(|_| letters(rng)).collect();
    let all = triples.into_iter().chain(others);
    all.map(PairCall::Merge).collect()
}
