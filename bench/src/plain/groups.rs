//! The table of ancestors and the rules by below.

use super::label::places;
use super::records::set_at;

/// For each group the set of itself and its ancestors.
pub struct Ancestors([u64; 64]);

impl Ancestors {
    /// Of the first `count` groups by the parent of each, 255 for none. Nothing where a parent isn't one of them, or
    /// parents never end. A walk along parents ends at a group that is decided; the groups on it are then decided.
    pub fn new(parents: &[u8; 64], count: usize) -> Option<Ancestors> {
        let (mut table, mut passed) = ([0; 64], [0; 64]);
        for group in 0..count {
            let (mut at, mut depth, mut above) = (group, 0, 0);
            while table[at] == 0 {
                *passed.get_mut(depth)? = at as u8;
                depth += 1;
                if parents[at] == 255 {
                    break;
                }
                at = usize::from(parents[at]);
                if at >= count {
                    return None;
                }
                above = table[at];
            }
            for &group in passed[..depth].iter().rev() {
                above |= 1 << group;
                table[usize::from(group)] = above;
            }
        }
        Some(Ancestors(table))
    }

    /// Whether each group of a set is in below(first) and in below(second): it or an ancestor is in them.
    #[inline(always)]
    pub fn all_below(&self, set: u64, first: u64, second: u64) -> bool {
        let mut rest = set & !(first & second);
        while rest != 0 {
            let above = self.0[rest.trailing_zeros() as usize];
            if above & first == 0 || above & second == 0 {
                return false;
            }
            rest &= rest - 1;
        }
        true
    }

    /// Whether each group of a set is in below(other).
    pub fn lies_below(&self, set: u64, other: u64) -> bool {
        self.all_below(set, other, other)
    }

    /// Whether one group of a set is in below(first) and in below(second).
    pub fn meets_below(&self, set: u64, first: u64, second: u64) -> bool {
        let is_below = |group: usize| self.0[group] & first != 0 && self.0[group] & second != 0;
        places(set).any(is_below)
    }

    /// All groups in below(set).
    pub fn below(&self, set: u64) -> u64 {
        let entries = self.0.iter().enumerate();
        let below = entries.filter(|(_, ancestors)| *ancestors & set != 0);
        below.fold(0, |below, (group, _)| below | 1 << group)
    }

    /// The rules by below of a user.
    #[inline(always)]
    pub fn user_holds(&self, record: &[u8; 128]) -> bool {
        let [read, write, default, row] = [72, 80, 88, 96].map(|at| set_at(record, at));
        self.all_below(write | default, read, read) && self.all_below(row, default, write)
    }
}

/// The lowest group whose parents never end.
pub fn first_ring(parents: &[u8; 64], count: usize) -> Option<usize> {
    let is_endless = |group: &usize| {
        let mut at = *group as u8;
        // A walk of more steps comes back to a group that it passed.
        for _ in 0..=count {
            at = match at {
                255 => return false,
                _ => parents[usize::from(at)],
            };
        }
        at != 255
    };
    (0..count).find(is_endless)
}
