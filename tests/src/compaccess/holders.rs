//! Which users of a policy hold COMPACCESS.

use crate::builder::Policy;
use crate::rng::Rng;

#[derive(Clone, Copy, Debug, PartialEq, Eq)]
pub enum Who {
    Nobody,
    First,
    Last,
    /// Any one.
    One,
    /// About half of them.
    Some,
    AllButOne,
    All,
}

impl Who {
    pub const ALL: [Who; 7] = [
        Who::Nobody,
        Who::First,
        Who::Last,
        Who::One,
        Who::Some,
        Who::AllButOne,
        Who::All,
    ];

    /// The places, rising, of those among so many users. Of no users nobody holds it.
    pub fn of(self, users: usize, rng: &mut Rng) -> Vec<usize> {
        let Some(one) = rng.place(0, users) else {
            return Vec::new();
        };
        match self {
            Who::Nobody => Vec::new(),
            Who::First => vec![0],
            Who::Last => vec![users - 1],
            Who::One => vec![one],
            Who::Some => (0..users).filter(|_| rng.once_in(2)).collect(),
            Who::AllButOne => (0..users).filter(|&place| place != one).collect(),
            Who::All => (0..users).collect(),
        }
    }
}

/// The policy with other users as those who hold COMPACCESS, if there is such a privilege.
pub fn held(policy: Policy, rng: &mut Rng) -> Policy {
    if !policy.variant().has_compaccess() {
        return policy;
    }
    let who = *rng.pick(&Who::ALL);
    let holders = who.of(policy.users.len(), rng);
    policy.held_by(&holders)
}
