//! Sets of places, up to 256 of them.

use std::fmt::{self, Debug, Formatter};
use std::ops::{BitAnd, BitAndAssign, BitOr, BitOrAssign, Not};

/// Place p is bit p mod 64 of word p div 64.
#[derive(Clone, Copy, Default, PartialEq, Eq)]
pub struct Set([u64; 4]);

impl Set {
    pub const NONE: Set = Set([0; 4]);
    pub const ALL: Set = Set([u64::MAX; 4]);

    /// How many places there are for a set.
    pub const PLACES: usize = 256;

    pub const fn from_words(words: [u64; 4]) -> Set {
        Set(words)
    }

    pub fn words(self) -> [u64; 4] {
        self.0
    }

    /// The set of one place.
    pub fn of(place: usize) -> Set {
        let mut words = [0; 4];
        words[place / 64] = 1 << (place % 64);
        Set(words)
    }

    /// The set of the first `count` places.
    pub fn first(count: usize) -> Set {
        Set(
            [0, 64, 128, 192].map(|before| match count.saturating_sub(before) {
                more @ 0..64 => (1 << more) - 1,
                _ => u64::MAX,
            }),
        )
    }

    pub fn has(self, place: usize) -> bool {
        place < Set::PLACES && self.0[place / 64] >> (place % 64) & 1 == 1
    }

    pub fn is_empty(self) -> bool {
        self == Set::NONE
    }

    pub fn is_in(self, other: Set) -> bool {
        (self & !other).is_empty()
    }

    pub fn meets(self, other: Set) -> bool {
        !(self & other).is_empty()
    }

    /// How many places it has.
    pub fn count(self) -> usize {
        let ones = self.0.iter().map(|word| word.count_ones() as usize);
        ones.sum()
    }

    /// Its places, the lowest first.
    pub fn places(self) -> impl Iterator<Item = usize> {
        let words = self.0.into_iter().zip([0, 64, 128, 192]);
        words.flat_map(|(word, before)| {
            let has = move |place: &usize| word >> place & 1 == 1;
            let end = if word == 0 { 0 } else { 64 };
            (0..end).filter(has).map(move |place| before + place)
        })
    }

    /// The bytes of the set: bit p mod 8 of byte p div 8 for place p.
    pub fn to_bytes(self) -> [u8; 32] {
        let mut bytes = [0; 32];
        for (part, word) in bytes.chunks_mut(8).zip(self.0) {
            part.copy_from_slice(&word.to_le_bytes());
        }
        bytes
    }

    /// The set of up to 32 bytes.
    pub fn from_bytes(bytes: &[u8]) -> Set {
        let has = |place: &usize| bytes[place / 8] >> (place % 8) & 1 == 1;
        (0..8 * bytes.len()).filter(has).collect()
    }
}

impl From<u64> for Set {
    /// Of the first 64 places.
    fn from(word: u64) -> Set {
        Set([word, 0, 0, 0])
    }
}

impl FromIterator<usize> for Set {
    fn from_iter<I: IntoIterator<Item = usize>>(places: I) -> Set {
        let places = places.into_iter();
        places.fold(Set::NONE, |set, place| set | Set::of(place))
    }
}

impl BitAnd for Set {
    type Output = Set;

    fn bitand(self, other: Set) -> Set {
        Set([0, 1, 2, 3].map(|at| self.0[at] & other.0[at]))
    }
}

impl BitOr for Set {
    type Output = Set;

    fn bitor(self, other: Set) -> Set {
        Set([0, 1, 2, 3].map(|at| self.0[at] | other.0[at]))
    }
}

impl Not for Set {
    type Output = Set;

    fn not(self) -> Set {
        Set(self.0.map(|word| !word))
    }
}

impl BitAndAssign for Set {
    fn bitand_assign(&mut self, other: Set) {
        *self = *self & other;
    }
}

impl BitOrAssign for Set {
    fn bitor_assign(&mut self, other: Set) {
        *self = *self | other;
    }
}

impl Debug for Set {
    fn fmt(&self, formatter: &mut Formatter) -> fmt::Result {
        formatter.debug_set().entries(self.places()).finish()
    }
}

#[cfg(test)]
mod tests {
    use super::Set;

    #[test]
    fn places_of_all_words() {
        let set: Set = [0, 63, 64, 200, 255].into_iter().collect();
        assert_eq!(set.places().collect::<Vec<_>>(), [0, 63, 64, 200, 255]);
        assert_eq!(set.count(), 5);
        assert!(set.has(255) && !set.has(254) && !set.has(256));
        assert!(set.is_in(Set::ALL) && !Set::ALL.is_in(set));
        assert_eq!(!Set::first(256), Set::NONE);
        assert_eq!((!Set::first(64)).places().next(), Some(64));
        for count in 0..=256 {
            assert!(Set::first(count).places().eq(0..count));
        }
        assert_eq!(Set::first(257), Set::ALL);
    }

    #[test]
    fn bytes_of_a_set() {
        let set: Set = [1, 64, 255].into_iter().collect();
        let mut bytes = [0; 32];
        bytes[0] = 2;
        bytes[8] = 1;
        bytes[31] = 128;
        assert_eq!(set.to_bytes(), bytes);
        assert_eq!(Set::from_bytes(&bytes), set);
        assert_eq!(Set::from_bytes(&bytes[..8]), Set::of(1));
    }
}
