//! Moves up by profile and seed (request R-11): images of both editions, whole and damaged, with and without
//! users who hold COMPACCESS, with buffers of all lengths.

pub mod by_hand;
mod tally;

pub use tally::MoveTally;

use crate::builder::{random, to_image, Edition, Policy, Profile, Sizes, Variant};
use crate::cases::Case;
use crate::compaccess::held;
use crate::compare::written;
use crate::damage::{Damage, Draft};
use crate::ffi::Answer;
use crate::model::{clear_compaccess, move_up};
use crate::rng::Rng;
use crate::tables::numbers::{bytes, room};

/// A move: what it is lent, and what the model gives.
pub struct Move {
    pub image: Vec<u8>,
    pub buffer: Vec<u8>,
    /// The length of the moved image, if there is one, also where it is refused for holders of COMPACCESS.
    pub needed: Option<usize>,
    pub answer: Answer,
    /// The buffer after the move.
    pub after: Vec<u8>,
}

impl Move {
    pub fn new(profile: Profile, seed: u64) -> Move {
        let mut rng = Rng::new(seed);
        let image = image(profile, seed, &mut rng);
        let cleared = clear_compaccess(&image, usize::MAX);
        let moved = cleared.and_then(|image| move_up(&image, usize::MAX));
        let needed = moved.ok().map(|moved| moved.len());
        let about = needed.unwrap_or_else(|| rng.range(0, 3_000));
        let room = room(about, &mut rng);
        let buffer = bytes(room, &mut rng);
        let (answer, after) = by_model(&image, &buffer);
        Move {
            image,
            buffer,
            needed,
            answer,
            after,
        }
    }
}

/// The model's answer, and the buffer after it.
pub fn by_model(image: &[u8], buffer: &[u8]) -> (Answer, Vec<u8>) {
    written(move_up(image, buffer.len()), buffer)
}

/// Mostly one of edition 1 that can be moved; often one whose users hold COMPACCESS, that is damaged, of
/// edition 2, or of sizes about which edition 2 has limits.
fn image(profile: Profile, seed: u64, rng: &mut Rng) -> Vec<u8> {
    let [one, two] = Edition::ALL.map(|edition| edition.of(profile));
    match rng.index(16) {
        0..=2 => Case::new(one, seed).image,
        3..=5 => Case::new(two, seed).image,
        6 => to_image(&policy(two, rng)),
        7 => to_image(&around_limits(profile, rng)),
        8 if rng.once_in(2) => damaged(around_limits(profile, rng), rng),
        9 | 10 => to_image(&held(policy(one, rng), rng)),
        _ => to_image(&movable(profile, rng)),
    }
}

/// A policy of edition 1 that can be moved up.
pub fn movable(profile: Profile, rng: &mut Rng) -> Policy {
    policy(Edition::One.of(profile), rng).held_by(&[])
}

/// A policy that edition 2 has room for. In a tree of edition 1 users may hold COMPACCESS.
pub fn policy(variant: impl Into<Variant>, rng: &mut Rng) -> Policy {
    let variant = variant.into();
    let sizes = match rng.index(24) {
        0 => Sizes::any(variant, rng),
        1..=3 => Sizes::medium(variant, rng),
        4..=11 => Sizes::several_blocks(variant, rng),
        _ => Sizes::small(variant, rng),
    };
    let sizes = Sizes {
        labels: sizes.labels.min(Edition::Two.most_labels()),
        users: sizes.users.min(Edition::Two.most_users()),
        ..sizes
    };
    random(sizes, rng)
}

/// A policy of edition 1 with as many labels or users as edition 2 may have, with one more, or with as
/// many as there may be. Nobody, some or all of the users hold COMPACCESS, if the profile has it.
pub fn around_limits(profile: Profile, rng: &mut Rng) -> Policy {
    let small = Sizes::small(Edition::One.of(profile), rng);
    let labels = [small.labels, 799, 800, 801, 1_680];
    let users = [small.users, 31, 32, 33, 96];
    let sizes = Sizes {
        labels: *rng.pick(&labels),
        users: *rng.pick(&users),
        ..small
    };
    held(random(sizes, rng), rng)
}

/// The image after damage that 31 to 35 refuse, if the policy has what such damage needs.
pub fn damaged(policy: Policy, rng: &mut Rng) -> Vec<u8> {
    let mut draft = Draft::new(policy);
    let mut kinds: Vec<&Damage> = Damage::ALL.iter().filter(|it| it.number() > 30).collect();
    rng.shuffle(&mut kinds);
    let done = kinds.iter().find_map(|it| it.apply(&mut draft, rng));
    done.expect("one of the kinds fits every policy");
    draft.image
}
