//! Images for comparing two programs. An edition, a profile and a seed name one image, its kind and its size.

pub mod by_hand;
pub mod release;
mod tally;
mod told;

pub use tally::DamageTally;

use crate::builder::layout::{seal, BLOCK};
use crate::builder::{random, to_image, Policy, Sizes, Variant};
use crate::damage::{Combined, Damage, Draft, Expected};
use crate::model::Refusal;
use crate::rng::Rng;

#[derive(Clone, Copy, Debug, PartialEq, Eq, PartialOrd, Ord)]
pub enum Kind {
    Valid,
    Damaged(Damage),
    /// Two faults of which one is known to be told.
    Combined(Combined),
    /// Two to four kinds of damage at once.
    Several,
    /// Some bytes changed, checks as they were.
    Changed,
    /// Some bytes changed, checks mended.
    ChangedMended,
    /// Random bytes, half of the images with right places and checks.
    Noise,
}

/// How often two faults come for each time that one comes.
const COMBINED: usize = 2;

/// What has no kind of its own, and how often for each round through all kinds of damage.
const OTHERS: [(Kind, usize); 5] = [
    (Kind::Valid, 20),
    (Kind::Several, 90),
    (Kind::Changed, 4),
    (Kind::ChangedMended, 10),
    (Kind::Noise, 4),
];

pub struct Case {
    /// What the image is of, but for damage to it.
    pub variant: Variant,
    pub kind: Kind,
    pub image: Vec<u8>,
    /// What each damage by itself is refused with, in the order in which they were done.
    pub done: Vec<Expected>,
}

impl Case {
    pub fn new(variant: impl Into<Variant>, seed: u64) -> Case {
        let variant = variant.into();
        let kind = kind_of(variant, seed);
        let mut source = Source {
            variant,
            rng: Rng::new(seed),
        };
        let (image, done) = match kind {
            Kind::Valid => (to_image(&source.policy()), Vec::new()),
            Kind::Damaged(damage) => source.damaged(|draft, rng| damage.apply(draft, rng)),
            Kind::Combined(damage) => source.damaged(|draft, rng| damage.apply(draft, rng)),
            Kind::Several => source.several(),
            Kind::Changed => (source.changed(false), Vec::new()),
            Kind::ChangedMended => (source.changed(true), Vec::new()),
            Kind::Noise => (noise(&mut source.rng), Vec::new()),
        };
        Case {
            variant,
            kind,
            image,
            done,
        }
    }

    /// What the image is refused with, where the damage tells it.
    pub fn expected(&self) -> Option<Refusal> {
        match self.done[..] {
            [expected] => Some(expected.refusal()),
            _ => None,
        }
    }

    /// Whether damage was done at more than one place.
    pub fn has_several(&self) -> bool {
        matches!(self.kind, Kind::Combined(_) | Kind::Several)
    }
}

/// Seeds in a row go through all kinds in turn.
fn kind_of(variant: Variant, seed: u64) -> Kind {
    let damages = Damage::of(variant).into_iter().map(Kind::Damaged);
    let combined = Combined::of(variant).into_iter().map(Kind::Combined);
    let combined = combined.flat_map(|kind| [kind; COMBINED]);
    let others = OTHERS.iter().flat_map(|&(kind, times)| vec![kind; times]);
    let kinds: Vec<Kind> = damages.chain(combined).chain(others).collect();
    kinds[(seed % kinds.len() as u64) as usize]
}

/// What policies are drawn from.
struct Source {
    variant: Variant,
    rng: Rng,
}

/// Mostly small, often of several blocks of each kind, now and then up to all limits.
pub fn policy(variant: Variant, rng: &mut Rng) -> Policy {
    let sizes = match rng.index(150) {
        0 => Sizes::any(variant, rng),
        1 => Sizes::full(variant),
        2..=11 => Sizes::medium(variant, rng),
        12..=61 => Sizes::several_blocks(variant, rng),
        _ => Sizes::small(variant, rng),
    };
    random(sizes, rng)
}

impl Source {
    fn policy(&mut self) -> Policy {
        policy(self.variant, &mut self.rng)
    }

    /// Policies are tried until one has what the damage needs.
    fn damaged(
        &mut self,
        apply: impl Fn(&mut Draft, &mut Rng) -> Option<Expected>,
    ) -> (Vec<u8>, Vec<Expected>) {
        loop {
            let mut draft = Draft::new(self.policy());
            if let Some(expected) = apply(&mut draft, &mut self.rng) {
                return (draft.image, vec![expected]);
            }
        }
    }

    /// Where the policy lacks what one kind of damage needs, another is tried, and at last another
    /// policy.
    fn several(&mut self) -> (Vec<u8>, Vec<Expected>) {
        let (wanted, is_late) = (self.rng.range(2, 4), self.rng.once_in(4));
        loop {
            let mut draft = Draft::new(self.policy());
            let tries = (0..40).filter_map(|_| {
                let damage = one_of_several(is_late, &mut self.rng);
                damage.apply(&mut draft, &mut self.rng)
            });
            let done: Vec<Expected> = tries.take(wanted).collect();
            if done.len() == wanted {
                return (draft.image, done);
            }
        }
    }

    /// 0 and 255 are the same to a block's check, so they are often put for each other.
    fn changed(&mut self, mended: bool) -> Vec<u8> {
        let mut image = to_image(&self.policy());
        let rng = &mut self.rng;
        for _ in 0..rng.range(1, 3) {
            let at = rng.index(image.len());
            image[at] = match rng.index(3) {
                0 => image[at] ^ 1 << rng.index(8),
                1 if image[at].is_multiple_of(255) => 255 - image[at],
                _ => rng.byte(),
            };
            if mended {
                seal(&mut image, at / BLOCK);
            }
        }
        image
    }
}

/// Mostly such damage that other faults can be told beside it; or else only such that all other
/// faults are told before it.
fn one_of_several(is_late: bool, rng: &mut Rng) -> Damage {
    loop {
        let damage = *rng.pick(Damage::ALL);
        let is_one = match is_late {
            true => damage.comes_late(),
            false => !damage.hides_the_rest() || rng.once_in(12),
        };
        if is_one {
            return damage;
        }
    }
}

fn noise(rng: &mut Rng) -> Vec<u8> {
    let length = if rng.once_in(3) {
        rng.range(0, 2_000)
    } else {
        rng.range(1, 4) * BLOCK
    };
    let mut image: Vec<u8> = (0..length).map(|_| rng.byte()).collect();
    if rng.once_in(2) {
        for (place, block) in image.chunks_exact_mut(BLOCK).enumerate() {
            block[2..4].copy_from_slice(&(place as u16).to_le_bytes());
            seal(block, 0);
        }
    }
    image
}
