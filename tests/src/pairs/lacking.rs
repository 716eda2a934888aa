//! Labels that name a component which the policy lacks.

use crate::builder::Policy;
use crate::calls::Pair;
use crate::ffi::LABEL;
use crate::rng::Rng;

#[derive(Clone, Copy, Debug, PartialEq, Eq)]
enum Part {
    Level,
    Compartment,
    Group,
    /// A group in bytes 24..47, which no policy of edition 1 has, and only some of edition 2.
    GroupPast,
}

#[derive(Clone, Copy, Debug, PartialEq, Eq)]
enum Side {
    First,
    Second,
    Both,
}

/// Which part is lacking, and of which label.
#[derive(Clone, Copy, Debug, PartialEq, Eq)]
pub struct Lacking {
    part: Part,
    side: Side,
}

const PARTS: [Part; 4] = [Part::Level, Part::Compartment, Part::Group, Part::GroupPast];
const SIDES: [Side; 3] = [Side::First, Side::Second, Side::Both];

impl Lacking {
    /// Changes the labels. Where the policy has all that there can be of a part, nothing is lacking.
    pub fn any(policy: &Policy, pair: &mut Pair, rng: &mut Rng) -> Option<Lacking> {
        let (part, side) = (*rng.pick(&PARTS), *rng.pick(&SIDES));
        let [first, second] = pair;
        match side {
            Side::First => part.add(policy, first, rng)?,
            Side::Second => part.add(policy, second, rng)?,
            Side::Both => {
                part.add(policy, first, rng)?;
                part.add(policy, second, rng)?;
                if rng.once_in(2) {
                    *second = *first;
                }
            }
        }
        Some(Lacking { part, side })
    }

    /// The part and the label in words.
    pub fn name(self) -> String {
        format!("{:?} of {:?}", self.part, self.side)
    }

    /// The names of all that can be lacking.
    pub fn names() -> Vec<String> {
        let of_part = |part| SIDES.map(|side| Lacking { part, side }.name());
        PARTS.into_iter().flat_map(of_part).collect()
    }
}

impl Part {
    /// Adds a place that the policy lacks, often the lowest or the highest.
    fn add(self, policy: &Policy, label: &mut [u8; LABEL], rng: &mut Rng) -> Option<()> {
        let (at, count, end) = match self {
            Part::Level => {
                label[4] = rng.with_ends(policy.levels.len(), 255) as u8;
                return Some(());
            }
            Part::Compartment => (8, policy.compartments.len(), 64),
            Part::Group => (16, policy.groups.len(), 64),
            Part::GroupPast => (16, policy.groups.len().max(64), 256),
        };
        if count >= end {
            return None;
        }
        let place = rng.with_ends(count, end - 1);
        label[at + place / 8] |= 1 << (place % 8);
        Some(())
    }
}
