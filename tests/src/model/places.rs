//! Sets of places.

use std::fmt::{self, Debug, Formatter};
use std::iter;
use std::ops::{BitAnd, BitOr, Sub};

/// The places below 128 and those from 128 to 255, one bit each.
#[derive(Clone, Copy, Default, PartialEq, Eq)]
pub struct Places {
    low: u128,
    high: u128,
}

impl Places {
    pub fn contains(&self, place: usize) -> bool {
        let half = if place < 128 { self.low } else { self.high };
        place < 256 && half >> (place % 128) & 1 == 1
    }

    /// Adds a place, which is below 256. Tells whether it is new.
    pub fn insert(&mut self, place: usize) -> bool {
        let is_new = !self.contains(place);
        let half = match place {
            0..128 => &mut self.low,
            128..256 => &mut self.high,
            _ => panic!("no set has place {place}"),
        };
        *half |= 1 << (place % 128);
        is_new
    }

    pub fn is_empty(&self) -> bool {
        *self == Places::default()
    }

    pub fn is_subset(&self, of: &Places) -> bool {
        (*self - *of).is_empty()
    }

    pub fn shares_one(&self, with: &Places) -> bool {
        !(*self & *with).is_empty()
    }

    /// Whether all places are below a count.
    pub fn all_below(&self, count: usize) -> bool {
        let is_past = |half: u128, count: usize| count < 128 && half >> count != 0;
        !is_past(self.low, count) && !is_past(self.high, count.saturating_sub(128))
    }

    /// The set of 32 bytes: bit p of their number, which is little-endian, for place p.
    pub fn read(bytes: &[u8; 32]) -> Places {
        let half = |at: usize| {
            let mut half = [0; 16];
            half.copy_from_slice(&bytes[at..at + 16]);
            u128::from_le_bytes(half)
        };
        Places {
            low: half(0),
            high: half(16),
        }
    }

    /// The places, rising.
    pub fn iter(&self) -> impl Iterator<Item = usize> {
        let high = ones(self.high).map(|place| 128 + place);
        ones(self.low).chain(high)
    }
}

/// The places of the bits that are set.
fn ones(mut half: u128) -> impl Iterator<Item = usize> {
    iter::from_fn(move || {
        let lowest = (half != 0).then(|| half.trailing_zeros() as usize)?;
        half &= half - 1;
        Some(lowest)
    })
}

impl FromIterator<usize> for Places {
    fn from_iter<I: IntoIterator<Item = usize>>(places: I) -> Places {
        let mut set = Places::default();
        for place in places {
            set.insert(place);
        }
        set
    }
}

impl<const N: usize> From<[usize; N]> for Places {
    fn from(places: [usize; N]) -> Places {
        places.into_iter().collect()
    }
}

impl BitAnd for Places {
    type Output = Places;

    fn bitand(self, other: Places) -> Places {
        Places {
            low: self.low & other.low,
            high: self.high & other.high,
        }
    }
}

impl BitOr for Places {
    type Output = Places;

    fn bitor(self, other: Places) -> Places {
        Places {
            low: self.low | other.low,
            high: self.high | other.high,
        }
    }
}

impl Sub for Places {
    type Output = Places;

    fn sub(self, other: Places) -> Places {
        Places {
            low: self.low & !other.low,
            high: self.high & !other.high,
        }
    }
}

impl Debug for Places {
    fn fmt(&self, formatter: &mut Formatter) -> fmt::Result {
        formatter.debug_set().entries(self.iter()).finish()
    }
}

#[cfg(test)]
mod tests {
    use super::Places;

    #[test]
    fn sets_of_both_halves() {
        let one = Places::from([0, 127, 128, 255]);
        let two = Places::from([127, 128, 200]);
        assert_eq!(one.iter().collect::<Vec<_>>(), [0, 127, 128, 255]);
        assert_eq!(one & two, Places::from([127, 128]));
        assert_eq!(one | two, Places::from([0, 127, 128, 200, 255]));
        assert_eq!(one - two, Places::from([0, 255]));
        assert!(one.shares_one(&two) && !one.is_subset(&two));
        assert!(Places::from([255]).is_subset(&one));
        assert!(one.all_below(256) && !one.all_below(255));
        assert!(!one.all_below(127) && !one.all_below(0));
        assert!(Places::from([63, 127]).all_below(128));
        assert!(!Places::from([63, 127]).all_below(127));
        assert!(Places::default().all_below(0));
        assert!(!one.contains(256) && !one.contains(1));
        assert!(Places::default().is_empty());
    }

    #[test]
    fn sets_of_bytes() {
        let mut bytes = [0; 32];
        for (at, byte) in [(0, 1), (7, 128), (15, 128), (16, 1), (31, 128)] {
            bytes[at] = byte;
        }
        assert_eq!(Places::read(&bytes), Places::from([0, 63, 127, 128, 255]));
    }
}
