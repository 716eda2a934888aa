//! How large random policies are, up to all limits of an edition.

use super::{Edition, Variant};
use crate::rng::Rng;

/// The edition and the profile of a policy, and how many of each it has.
#[derive(Clone, Copy, Debug)]
pub struct Sizes {
    pub variant: Variant,
    pub levels: usize,
    pub compartments: usize,
    pub groups: usize,
    pub users: usize,
    pub labels: usize,
}

impl Sizes {
    /// The largest image: 127 blocks in either edition.
    pub fn full(variant: impl Into<Variant>) -> Sizes {
        let variant = variant.into();
        let edition = variant.edition;
        Sizes {
            variant,
            levels: 32,
            compartments: 64,
            groups: edition.most_groups(),
            users: edition.most_users(),
            labels: edition.most_labels(),
        }
    }

    pub fn small(variant: impl Into<Variant>, rng: &mut Rng) -> Sizes {
        let variant = variant.into();
        let edition = variant.edition;
        Sizes {
            variant,
            levels: rng.range(1, 5),
            compartments: rng.range(0, 6),
            groups: few_groups(edition, rng),
            users: rng.range(0, 4),
            labels: rng.range(0, 8),
        }
    }

    /// One to three blocks of each kind.
    pub fn several_blocks(variant: impl Into<Variant>, rng: &mut Rng) -> Sizes {
        let variant = variant.into();
        let edition = variant.edition;
        Sizes {
            variant,
            levels: rng.range(1, 8),
            compartments: rng.range(0, 12),
            groups: rng.range(2, 16),
            users: rng.range(2, 3 * edition.users().in_block),
            labels: rng.range(10, 2 * edition.labels().in_block + 8),
        }
    }

    /// Several blocks of each kind, at most.
    pub fn medium(variant: impl Into<Variant>, rng: &mut Rng) -> Sizes {
        let variant = variant.into();
        let edition = variant.edition;
        Sizes {
            variant,
            levels: rng.range(1, 32),
            compartments: rng.range(0, 64),
            groups: rng.range(0, edition.most_groups()),
            users: rng.range(0, 12),
            labels: rng.range(0, 64),
        }
    }

    /// Anything within the limits, often a limit itself.
    pub fn any(variant: impl Into<Variant>, rng: &mut Rng) -> Sizes {
        let variant = variant.into();
        let full = Sizes::full(variant);
        Sizes {
            variant,
            levels: up_to(full.levels, rng).max(1),
            compartments: up_to(full.compartments, rng),
            groups: up_to(full.groups, rng),
            users: up_to(full.users, rng),
            labels: up_to(full.labels, rng),
        }
    }
}

/// Few; in edition 2 at times with so many before them that they stand at the end of a word of 64
/// places, after it, or at the last places that there are.
fn few_groups(edition: Edition, rng: &mut Rng) -> usize {
    let few = rng.range(0, 8);
    match edition {
        Edition::Two if rng.once_in(4) => few + rng.pick(&[60, 64, 124, 128, 188, 192, 248]),
        _ => few,
    }
}

fn up_to(limit: usize, rng: &mut Rng) -> usize {
    match rng.index(6) {
        0 => 0,
        1 | 2 => limit,
        _ => rng.range(0, limit),
    }
}
