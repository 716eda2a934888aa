//! Maps by edition, profile and seed (request R-4), which name a policy and sessions of its users: maps are made and
//! judged, right ones and wrong ones, with the policy's image and with damaged ones.

mod asked;
pub mod by_hand;
mod calls;
pub mod facts;
mod kinds;
mod tally;

pub use asked::{ask, compare};
pub use calls::MapCall;
pub use kinds::{bit, every_bit, every_wrong, MapKind};
pub use tally::MapTally;

use crate::builder::{to_image, Label, Policy, Variant};
use crate::ffi::{Answer, SESSION};
use crate::model::{self, Image, Session};
use crate::rng::Rng;
use crate::row_calls::Lent;
use crate::tables::numbers::{bytes, room};
use crate::walk::Walk;

/// How many calls on sessions come before the calls on maps.
const SESSION_CALLS: usize = 16;

const READ: u8 = 1;

/// A call: what it is lent, and what the model gives.
pub struct Step<'a> {
    pub image: &'a [u8],
    pub call: MapCall,
    pub lent: Lent,
    pub answer: Answer,
    pub after: Lent,
    /// How many labels the policy has.
    pub labels: usize,
    /// The session's map on the policy's own image, if the session keeps its rules, and on another image.
    pub right: Option<Vec<u8>>,
    pub elsewhere: Option<Vec<u8>>,
    /// The privileges of the session's user, if there is such a user.
    pub privileges: Option<u8>,
}

/// Shows the first calls of an edition, a profile and a seed.
pub fn each_map_call(
    variant: impl Into<Variant>,
    seed: u64,
    count: usize,
    mut see: impl FnMut(&Step),
) {
    let mut walk = Walk::new(variant, seed);
    let images = walk.images();
    let checked: Vec<_> = images.iter().map(|image| model::accepted(image)).collect();
    let other = to_image(&other_policy(&walk.policy, &mut walk.rng));
    let [own, other] = [&images[0], &other].map(|image| model::accepted(image));
    let [own, other] = [own, other].map(|image| image.expect("the policy is well-formed"));
    walk.wander(&checked[0], SESSION_CALLS);
    for _ in 0..count {
        let image = walk.image(images.len());
        let session = walk.session();
        let [right, elsewhere] = [&own, &other].map(|image| map_of(image, &session));
        let call = match walk.rng.index(8) {
            0..=2 => MapCall::Make,
            3 => MapCall::Judge(elsewhere.clone().unwrap_or_default()),
            _ => MapCall::Judge(any_map(&own, &session, &mut walk)),
        };
        let lent = lent(session, &call, right.as_deref(), &mut walk.rng);
        let mut after = lent.clone();
        let answer = call.by_model(&checked[image], &mut after);
        see(&Step {
            image: &images[image],
            call,
            answer,
            after,
            labels: walk.policy.labels.len(),
            right,
            elsewhere,
            privileges: walk.privileges(&lent.session),
            lent,
        });
    }
}

/// The same policy with a label less, with a label that is another's, or with READ for just the other users.
pub fn other_policy(policy: &Policy, rng: &mut Rng) -> Policy {
    let mut policy = policy.clone();
    match (rng.index(3), rng.place(0, policy.labels.len())) {
        (0, Some(place)) => {
            policy.labels.remove(place);
        }
        (1, Some(place)) => {
            let tag = policy.labels[place].tag;
            let label = rng.pick(&policy.labels).clone();
            policy.labels[place] = Label { tag, ..label };
        }
        _ => policy.users.iter_mut().for_each(|it| it.privileges ^= READ),
    }
    policy
}

/// The session's map, if the session keeps its rules.
pub fn map_of(image: &Image, session: &[u8; SESSION]) -> Option<Vec<u8>> {
    model::map(image, &Session::read(session), usize::MAX).ok()
}

/// Often the session's map; otherwise a wrong one of any kind, or that of a session that was handed out before.
/// Where the session breaks its rules, such a one takes the place of its own.
pub fn any_map(image: &Image, session: &[u8; SESSION], walk: &mut Walk) -> Vec<u8> {
    let others = walk.remembered().to_vec();
    map_or_other(image, session, &others, &mut walk.rng)
}

/// The same with the sessions that are told.
pub fn map_or_other(
    image: &Image,
    session: &[u8; SESSION],
    others: &[[u8; SESSION]],
    rng: &mut Rng,
) -> Vec<u8> {
    let labels = image.counts.labels().count;
    let other = rng.place(0, others.len()).map(|at| others[at]);
    let other = other.and_then(|it| map_of(image, &it));
    let other = other.unwrap_or_else(|| vec![0; labels.div_ceil(8)]);
    let right = map_of(image, session).unwrap_or_else(|| other.clone());
    let kind = *rng.pick(&MapKind::WRONG);
    match rng.index(8) {
        0..=3 => right,
        4 => other,
        _ => kind.make(&right, labels, rng).unwrap_or(right),
    }
}

/// What the call is lent. Only making a map has a buffer.
fn lent(session: [u8; SESSION], call: &MapCall, right: Option<&[u8]>, rng: &mut Rng) -> Lent {
    let needed = right.map_or(rng.index(4), <[u8]>::len);
    let room = match call {
        MapCall::Make => room(needed, rng),
        _ => 0,
    };
    Lent {
        session,
        table: Vec::new(),
        buffer: bytes(room, rng),
    }
}
