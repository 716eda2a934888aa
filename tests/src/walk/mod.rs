//! Calls on sessions by edition, profile and seed, which name a policy and a walk through its users' sessions:
//! they are opened, changed and asked, whole and broken, with the policy's image and with damaged ones.

mod breaks;
mod bytes;
mod policy;
mod reasons;
mod release;
mod tally;
mod wishes;

pub use breaks::Break;
pub use bytes::{label_at, label_of, spoil_unused, LABEL_AT, ROW_AT};
pub use policy::{is_ruled, one_of, policy};
pub use tally::WalkTally;

use crate::builder::{letters, to_image, Label, Policy, Variant};
use crate::calls::Call;
use crate::damage::{Damage, Draft};
use crate::ffi::{Answer, SESSION};
use crate::model::{self, Image, Refusal};
use crate::rng::Rng;
use crate::texts;
use bytes::set_bit;
use wishes::View;

/// How many sessions a walk remembers.
const REMEMBERED: usize = 8;

/// A call of a walk: what it is lent, and what the model gives.
pub struct Step<'a> {
    pub policy: &'a Policy,
    pub image: &'a [u8],
    pub lent: [u8; SESSION],
    pub call: Call,
    pub answer: Answer,
    pub session: [u8; SESSION],
    /// The privileges of the session's user, if there is such a user.
    pub privileges: Option<u8>,
    /// Whether a verdict is asked of a tag that is a label's.
    pub is_known: bool,
}

/// Shows the first calls of a walk. Sessions that the model hands out are lent again later.
pub fn each_call(variant: impl Into<Variant>, seed: u64, count: usize, mut see: impl FnMut(&Step)) {
    let mut walk = Walk::new(variant, seed);
    let images = walk.images();
    let checked: Vec<_> = images.iter().map(|image| model::accepted(image)).collect();
    for _ in 0..count {
        let image = walk.image(images.len());
        let lent = walk.session();
        let call = walk.call(&lent);
        let mut session = lent;
        let answer = walk.go(&call, &checked[image], &mut session);
        see(&Step {
            policy: &walk.policy,
            image: &images[image],
            lent,
            answer,
            session,
            privileges: walk.privileges(&lent),
            is_known: walk.is_known(&call),
            call,
        });
    }
}

/// A way through the sessions of a policy's users.
pub struct Walk {
    pub policy: Policy,
    pub rng: Rng,
    /// Sessions that calls handed out.
    sessions: Vec<[u8; SESSION]>,
}

impl Walk {
    pub fn new(variant: impl Into<Variant>, seed: u64) -> Walk {
        let mut rng = Rng::new(seed);
        Walk::of(policy(variant, &mut rng), rng)
    }

    pub fn of(policy: Policy, rng: Rng) -> Walk {
        Walk {
            policy,
            rng,
            sessions: Vec::new(),
        }
    }

    /// Makes some calls on the image, so that there are sessions to remember.
    pub fn wander(&mut self, image: &Result<Image, Refusal>, calls: usize) {
        for _ in 0..calls {
            let mut session = self.session();
            let call = self.call(&session);
            self.go(&call, image, &mut session);
        }
    }

    /// Sessions that were handed out.
    pub fn remembered(&self) -> &[[u8; SESSION]] {
        &self.sessions
    }

    /// The model's answer. A session that is handed out is remembered.
    fn go(
        &mut self,
        call: &Call,
        image: &Result<Image, Refusal>,
        session: &mut [u8; SESSION],
    ) -> Answer {
        let answer = call.by_model(image, session);
        if !call.is_verdict() && answer == Answer::Done(0) {
            self.keep(*session);
        }
        answer
    }

    /// The policy's image, and damaged ones: for each number that refuses an image one, where the
    /// policy has what such damage needs.
    pub fn images(&mut self) -> Vec<Vec<u8>> {
        let mut images = vec![to_image(&self.policy)];
        for number in [1, 2, 31, 32, 33, 34, 35] {
            images.extend(damaged(&self.policy, number, &mut self.rng));
        }
        images
    }

    /// Which of so many images is lent: mostly the first.
    pub fn image(&mut self, count: usize) -> usize {
        match self.rng.index(16) {
            0 => self.rng.range(1, count - 1),
            _ => 0,
        }
    }

    /// Mostly one that was handed out; some are broken then, or given to another user. Bytes that
    /// are not looked at often hold anything.
    pub fn session(&mut self) -> [u8; SESSION] {
        let rng = &mut self.rng;
        if self.sessions.is_empty() || rng.once_in(40) {
            return noise(self.policy.users.len(), rng);
        }
        let mut session = *rng.pick(&self.sessions);
        if rng.once_in(8) {
            // Without what the break takes the session stays whole.
            let _ = rng.pick(Break::ALL).apply(&self.policy, &mut session, rng);
        }
        if rng.once_in(16) {
            session[..2].fill(rng.index(self.policy.users.len()) as u8);
        }
        if rng.once_in(2) {
            spoil_unused(&mut session, rng);
        }
        session
    }

    fn call(&mut self, session: &[u8; SESSION]) -> Call {
        match self.rng.index(20) {
            _ if self.sessions.is_empty() && !self.policy.users.is_empty() => {
                Call::Open(self.name())
            }
            0..=2 => Call::Open(self.name()),
            3..=7 => self.new_label(session),
            8..=11 => self.new_row_label(session),
            12..=15 => Call::MayRead(self.tag()),
            _ => Call::MayWrite(self.tag()),
        }
    }

    pub fn new_label(&mut self, session: &[u8; SESSION]) -> Call {
        Call::SetLabel(self.text(session, wishes::session_label))
    }

    pub fn new_row_label(&mut self, session: &[u8; SESSION]) -> Call {
        Call::SetRowLabel(self.text(session, wishes::row_label))
    }

    /// Mostly a user's name, else one near it or one that can be no user's.
    pub fn name(&mut self) -> Vec<u8> {
        let rng = &mut self.rng;
        let Some(user) = rng.place(0, self.policy.users.len()) else {
            return letters(rng.range(0, 40), rng).into_bytes();
        };
        let mut name = self.policy.users[user].name.clone().into_bytes();
        let length = name.len();
        match rng.index(24) {
            0 => name.clear(),
            1 => name.make_ascii_lowercase(),
            2 => name.truncate(rng.index(length)),
            3 => name.extend(letters(rng.range(1, 3), rng).bytes()),
            4 => name.extend(letters(rng.range(31, 60), rng).bytes()),
            // As the record has it, with the zeros after it.
            5 => name.resize(rng.range(length, 31), 0),
            // A length that is the same mod 256.
            6 => name.resize(length + 256, b'A'),
            7 => name[length - 1] = rng.byte(),
            8 => name = letters(rng.range(1, 30), rng).into_bytes(),
            _ => {}
        }
        name
    }

    /// Mostly around what is allowed to the session's user, else any text.
    fn text(&mut self, session: &[u8; SESSION], wish: fn(&View, &mut Rng) -> Label) -> Vec<u8> {
        let Walk { policy, rng, .. } = self;
        let Some(user) = policy.users.get(usize::from(session[0])) else {
            return texts::text(policy, rng);
        };
        if rng.once_in(8) {
            return texts::text(policy, rng);
        }
        let view = View {
            policy,
            user,
            session,
        };
        let mut label = wish(&view, rng);
        for _ in 0..*rng.pick(&[0, 0, 0, 1, 1, 1, 2]) {
            wishes::disturb(&mut label, policy, rng);
        }
        texts::text_of(policy, &label, rng)
    }

    /// Mostly a known tag; else 0, one over all tags, any, or one bit from a known one.
    pub fn tag(&mut self) -> u32 {
        let rng = &mut self.rng;
        let known = match rng.place(0, self.policy.labels.len()) {
            Some(place) => self.policy.labels[place].tag,
            None => 1,
        };
        match rng.index(16) {
            0 => 0,
            1 => rng.with_ends(100_000_000, u32::MAX as usize) as u32,
            2 => rng.with_ends(1, 99_999_999) as u32,
            3 => known ^ 1 << rng.index(32),
            _ => known,
        }
    }

    fn keep(&mut self, session: [u8; SESSION]) {
        if self.sessions.len() < REMEMBERED {
            return self.sessions.push(session);
        }
        self.sessions[self.rng.index(REMEMBERED)] = session;
    }

    pub fn privileges(&self, session: &[u8; SESSION]) -> Option<u8> {
        let user = self.policy.users.get(usize::from(session[0]))?;
        Some(user.privileges)
    }

    fn is_known(&self, call: &Call) -> bool {
        let (Call::MayRead(tag) | Call::MayWrite(tag)) = call else {
            return false;
        };
        self.policy.labels.iter().any(|it| it.tag == *tag)
    }
}

/// The kinds of damage that the number refuses are tried in any order until one can be done.
fn damaged(policy: &Policy, number: u32, rng: &mut Rng) -> Option<Vec<u8>> {
    let kinds = Damage::ALL.iter().filter(|it| it.number() == number);
    let mut kinds: Vec<&Damage> = kinds.collect();
    rng.shuffle(&mut kinds);
    let mut draft = Draft::new(policy.clone());
    let done = kinds.iter().find_map(|it| it.apply(&mut draft, rng));
    done.map(|_| draft.image)
}

/// Zeros or random bytes, often with the place of a user.
fn noise(users: usize, rng: &mut Rng) -> [u8; SESSION] {
    let mut session = [0; SESSION];
    if rng.once_in(2) {
        session = session.map(|_| rng.byte());
    }
    if rng.once_in(2) {
        session[..2].fill(rng.index(users.max(1)) as u8);
    }
    session
}
