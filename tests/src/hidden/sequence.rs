//! Sequences of calls that a host makes for one user.

use super::program::{HostCall, Model, Program};
use super::scene::Scene;
use crate::builder::{Label, Policy, Profile};
use crate::calls::Call;
use crate::ffi::{Answer, SESSION};
use crate::maps::{every_bit, map_or_other};
use crate::model::{self, Image};
use crate::rng::Rng;
use crate::row_calls::{Lent, RowCall};
use crate::tables::numbers::{any_place, bytes, outside_width, payload, room};
use crate::tables::readable;
use crate::texts;
use crate::walk::{label_at, spoil_unused, Break, Walk, LABEL_AT, ROW_AT};
use std::mem;

/// A call, what it works on, and what a read's buffer holds before it in each of two runs. A map is the same in both.
pub struct Step {
    pub call: HostCall,
    /// A session of the user; without it, the one that was returned last.
    pub given: Option<[u8; SESSION]>,
    pub buffers: [Vec<u8>; 2],
}

/// A sequence for the scene's user. The first table is looked at on the way, so that counts, labels
/// and lengths are often such that much is done.
pub fn sequence(scene: &Scene, length: usize, rng: Rng) -> Vec<Step> {
    let image = model::accepted(&scene.image).expect("the policy is well-formed");
    let mut writer = Writer {
        scene,
        image,
        model: Model::new(&scene.image),
        walk: Walk::of(scene.policy.clone(), rng),
        table: scene.tables[0].clone(),
        last: None,
        known: Vec::new(),
    };
    let open = writer.open();
    writer.go(&open, &mut writer.lent([0; SESSION]));
    writer.last = None;
    (0..length).map(|_| writer.step()).collect()
}

struct Writer<'a> {
    scene: &'a Scene,
    image: Image<'a>,
    model: Model<'a>,
    walk: Walk,
    /// The first table after the steps so far.
    table: Vec<u8>,
    last: Option<[u8; SESSION]>,
    /// Sessions that calls handed out.
    known: Vec<[u8; SESSION]>,
}

impl Writer<'_> {
    fn step(&mut self) -> Step {
        let given = match self.last {
            Some(_) if !self.walk.rng.once_in(3) => None,
            _ => Some(self.given()),
        };
        let session = given.or(self.last).unwrap_or_else(|| self.known[0]);
        let width = self.scene.width;
        let readable = readable(&self.image, &session, &self.table, width);
        let call = self.call(&session, readable);
        let length = match call {
            HostCall::Rows(ref call) if call.hands_out() => {
                room(readable * width, &mut self.walk.rng)
            }
            _ => 0,
        };
        let buffers = [0; 2].map(|_| bytes(length, &mut self.walk.rng));
        let mut lent = self.lent(session);
        lent.buffer.clone_from(&buffers[0]);
        self.go(&call, &mut lent);
        Step {
            call,
            given,
            buffers,
        }
    }

    fn lent(&self, session: [u8; SESSION]) -> Lent {
        Lent {
            session,
            table: self.table.clone(),
            buffer: Vec::new(),
        }
    }

    /// The model makes the call.
    fn go(&mut self, call: &HostCall, lent: &mut Lent) {
        let answer = self.model.ask(call, lent);
        self.table = mem::take(&mut lent.table);
        if call.returns_session(answer) {
            self.last = Some(lent.session);
            if answer == Answer::Done(0) {
                self.known.push(lent.session);
            }
        }
    }

    /// A session of the user that was handed out before, at times broken or with a label past the
    /// user's rights, or any bytes with the user's place.
    fn given(&mut self) -> [u8; SESSION] {
        let rng = &mut self.walk.rng;
        let mut session = *rng.pick(&self.known);
        match rng.index(8) {
            0 | 1 => break_session(&self.scene.policy, &mut session, rng),
            2 => {
                let label = more_than(&session, &self.scene.policy, rng);
                session[LABEL_AT..ROW_AT].copy_from_slice(&label.to_bytes());
            }
            _ => {}
        }
        if rng.once_in(2) {
            spoil_unused(&mut session, rng);
        }
        if rng.once_in(40) {
            session[2..].fill_with(|| rng.byte());
        }
        session
    }

    fn call(&mut self, session: &[u8; SESSION], readable: usize) -> HostCall {
        match self.walk.rng.index(25) {
            0 => self.open(),
            1 => HostCall::Session(Call::Open(self.no_users_name())),
            2..=4 => HostCall::Session(self.walk.new_label(session)),
            5 => HostCall::Session(Call::SetLabel(self.maximum())),
            6 => HostCall::Session(Call::SetLabel(self.past_maximum())),
            7..=9 => HostCall::Session(self.walk.new_row_label(session)),
            10..=14 => HostCall::Rows(RowCall::Read {
                width: self.width(),
            }),
            15..=19 => HostCall::Rows(RowCall::ReadMapped {
                width: self.width(),
                map: self.map(session),
            }),
            _ => {
                let width = self.width();
                HostCall::Rows(RowCall::Update {
                    width,
                    n: any_place(readable, &mut self.walk.rng),
                    payload: payload(width, &mut self.walk.rng),
                })
            }
        }
    }

    fn open(&self) -> HostCall {
        let name = &self.scene.policy.users[self.scene.user].name;
        HostCall::Session(Call::Open(name.clone().into_bytes()))
    }

    fn no_users_name(&mut self) -> Vec<u8> {
        loop {
            let name = self.walk.name();
            let users = &self.scene.policy.users;
            if users.iter().all(|user| user.name.as_bytes() != name) {
                return name;
            }
        }
    }

    /// The text of the maximum read label.
    fn maximum(&mut self) -> Vec<u8> {
        let user = &self.scene.policy.users[self.scene.user];
        let label = Label {
            tag: 0,
            level: user.levels.maximum,
            compartments: user.compartments.read,
            groups: user.groups.read,
        };
        texts::text_of(&self.scene.policy, &label, &mut self.walk.rng)
    }

    /// The text of a label that is often past the maximum read label.
    fn past_maximum(&mut self) -> Vec<u8> {
        let (policy, rng) = (&self.scene.policy, &mut self.walk.rng);
        let label = more_than(&self.known[0], policy, rng);
        texts::text_of(policy, &label, rng)
    }

    /// The session's map, a wrong one, one of another session, or one that would show every row of a known tag.
    fn map(&mut self, session: &[u8; SESSION]) -> Vec<u8> {
        let rng = &mut self.walk.rng;
        match rng.index(4) {
            0 => every_bit(self.scene.policy.labels.len()),
            _ => map_or_other(&self.image, session, &self.known, rng),
        }
    }

    /// The scene's width, or one outside the limits.
    fn width(&mut self) -> usize {
        match self.walk.rng.index(12) {
            0 => outside_width(self.scene.width, &mut self.walk.rng),
            _ => self.scene.width,
        }
    }
}

/// One of the ways to break a session. One of them is left out: it would make it another user's.
fn break_session(policy: &Policy, session: &mut [u8; SESSION], rng: &mut Rng) {
    let is_kept = |way: &&Break| **way != Break::UserPast;
    let ways: Vec<&Break> = Break::ALL.iter().filter(is_kept).collect();
    // Without what the break takes the session stays whole.
    let _ = rng.pick(&ways).apply(policy, session, rng);
}

/// A session's label with more of all that the policy has, up to all of it. In the release profile fewer groups
/// are more.
fn more_than(session: &[u8; SESSION], policy: &Policy, rng: &mut Rng) -> Label {
    let label = label_at(session, LABEL_AT);
    Label {
        tag: 0,
        level: rng.with_ends(label.level.into(), policy.levels.len() - 1) as u8,
        compartments: label.compartments | rng.subset(policy.all_compartments()),
        groups: match policy.profile {
            Profile::Tree => label.groups | rng.subset(policy.all_groups()),
            Profile::Release => rng.subset(label.groups),
        },
    }
}
