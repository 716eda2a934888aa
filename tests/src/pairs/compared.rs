//! Pairs of labels under a policy: of all kinds, whole and with something that the policy lacks, with
//! the policy's image and with damaged ones.

use super::kinds::Kind;
use super::lacking::Lacking;
use crate::builder::{Label, Policy, Variant};
use crate::calls::{Pair, PairCall};
use crate::ffi::{Answer, LABEL};
use crate::model;
use crate::rng::Rng;
use crate::walk::Walk;

/// How many calls on sessions come first, so that there are sessions whose labels can be taken.
const SESSION_CALLS: usize = 16;

/// A question about two labels: what it is lent, and what the model gives.
pub struct Step<'a> {
    pub policy: &'a Policy,
    pub image: &'a [u8],
    pub kind: Kind,
    /// What the policy lacks of the labels.
    pub lacking: Option<Lacking>,
    /// The labels as the policy has them, without what is lacking.
    pub labels: &'a [Label; 2],
    pub call: PairCall,
    pub pair: Pair,
    pub answer: Answer,
}

/// Shows both questions about the first pairs of an edition, a profile and a seed.
pub fn each_pair(variant: impl Into<Variant>, seed: u64, count: usize, mut see: impl FnMut(&Step)) {
    let mut walk = Walk::new(variant, seed);
    let images = walk.images();
    let checked: Vec<_> = images.iter().map(|image| model::accepted(image)).collect();
    walk.wander(&checked[0], SESSION_CALLS);
    for _ in 0..count {
        let image = walk.image(images.len());
        let (kind, labels) = Kind::any(&mut walk);
        let Walk { policy, rng, .. } = &mut walk;
        let mut pair = labels.each_ref().map(|label| lent(label, rng));
        let lacking = match rng.once_in(5) {
            true => Lacking::any(policy, &mut pair, rng),
            false => None,
        };
        for call in PairCall::QUESTIONS {
            let answer = call.by_model(&checked[image], &pair, &mut [0; LABEL]);
            see(&Step {
                policy,
                image: &images[image],
                kind,
                lacking,
                labels: &labels,
                call,
                pair,
                answer,
            });
        }
    }
}

/// The label's bytes. Those that are not looked at often hold anything.
fn lent(label: &Label, rng: &mut Rng) -> [u8; LABEL] {
    let mut bytes = label.to_bytes();
    if rng.once_in(2) {
        for at in [0, 1, 2, 3, 5, 6, 7] {
            bytes[at] = rng.byte();
        }
    }
    bytes
}
