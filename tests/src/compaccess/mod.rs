//! The two calls of request R-12 by profile and seed: the list of the users who hold COMPACCESS, and the clearing
//! move. Images of both editions, whole and damaged, of which nobody, one, some or all users hold it, with
//! buffers of all lengths.

pub mod by_hand;
mod holders;
mod tally;
mod verdicts;

pub use holders::{held, Who};
pub use tally::HolderTally;
pub use verdicts::{each_verdict, Verdict, VerdictTally};

use crate::builder::{to_image, Edition, Profile};
use crate::cases::Case;
use crate::compare::written;
use crate::ffi::Answer;
use crate::model::{clear_compaccess, compaccess_users, Refusal};
use crate::moving::{around_limits, damaged, policy};
use crate::rng::Rng;
use crate::tables::numbers::{bytes, room};

/// A call that is lent an image and a buffer.
#[derive(Clone, Copy, Debug, PartialEq, Eq)]
pub enum HolderCall {
    /// The list of the users.
    Users,
    /// The image cleared.
    Clear,
}

impl HolderCall {
    pub const ALL: [HolderCall; 2] = [HolderCall::Users, HolderCall::Clear];

    pub fn name(self) -> &'static str {
        match self {
            HolderCall::Users => "compaccess_users",
            HolderCall::Clear => "clear_compaccess",
        }
    }

    /// What the model writes to a buffer of so many bytes.
    pub fn bytes(self, image: &[u8], room: usize) -> Result<Vec<u8>, Refusal> {
        match self {
            HolderCall::Users => compaccess_users(image, room),
            HolderCall::Clear => clear_compaccess(image, room),
        }
    }

    /// The model's answer, and the buffer after it.
    pub fn by_model(self, image: &[u8], buffer: &[u8]) -> (Answer, Vec<u8>) {
        written(self.bytes(image, buffer.len()), buffer)
    }

    /// The length of a buffer for an image that is refused.
    fn any_length(self, rng: &mut Rng) -> usize {
        match self {
            HolderCall::Users => rng.range(0, 100),
            HolderCall::Clear => rng.range(0, 3_000),
        }
    }
}

/// A call: what it is lent, and what the model gives.
pub struct Asked {
    pub call: HolderCall,
    pub image: Vec<u8>,
    pub buffer: Vec<u8>,
    /// The length of what is written, if the image isn't refused.
    pub needed: Option<usize>,
    pub answer: Answer,
    /// The buffer after the call.
    pub after: Vec<u8>,
}

impl Asked {
    /// Both calls on the image of a profile and a seed, each with a buffer of its own.
    pub fn both(profile: Profile, seed: u64) -> [Asked; 2] {
        let mut rng = Rng::new(seed);
        let image = image(profile, seed, &mut rng);
        HolderCall::ALL.map(|call| Asked::new(call, &image, &mut rng))
    }

    fn new(call: HolderCall, image: &[u8], rng: &mut Rng) -> Asked {
        let whole = call.bytes(image, usize::MAX).ok();
        let needed = whole.map(|bytes| bytes.len());
        let about = needed.unwrap_or_else(|| call.any_length(rng));
        let room = room(about, rng);
        let buffer = bytes(room, rng);
        let (answer, after) = call.by_model(image, &buffer);
        Asked {
            call,
            image: image.to_vec(),
            buffer,
            needed,
            answer,
            after,
        }
    }
}

/// Mostly one of edition 1 that is accepted; often damaged, of edition 2, or of sizes that edition 2 has
/// no room for.
fn image(profile: Profile, seed: u64, rng: &mut Rng) -> Vec<u8> {
    let [one, two] = Edition::ALL.map(|edition| edition.of(profile));
    match rng.index(16) {
        0 | 1 => Case::new(one, seed).image,
        2..=4 => Case::new(two, seed).image,
        5 => to_image(&policy(two, rng)),
        6 => to_image(&around_limits(profile, rng)),
        7 | 8 => damaged(held(policy(one, rng), rng), rng),
        _ => to_image(&held(policy(one, rng), rng)),
    }
}
