//! Sessions beside the label records of their policy: what a session reads, and what its label
//! dominates.

use crate::builder::{to_image, Label, Policy, User, Variant, COMPACCESS};
use crate::calls::{Call, Pair, PairCall};
use crate::compare::Checked;
use crate::ffi::{Answer, LABEL, SESSION};
use crate::maps::MapCall;
use crate::rng::Rng;
use crate::row_calls::{Lent, RowCall};
use crate::walk::{Walk, LABEL_AT, ROW_AT};

const READ: u8 = 1;
const FULL: u8 = 2;

/// How many users of a policy are asked, and how many changes of labels are tried for each.
const USERS: usize = 4;
const CHANGES: usize = 4;

/// From how many label records on a policy has only one user asked.
const MANY_LABELS: usize = 100;

/// The program that is asked.
#[derive(Clone, Copy, Debug, PartialEq, Eq)]
pub enum Program {
    Library,
    Model,
}

impl Program {
    pub fn call(self, call: &Call, lent: &Checked, session: &mut [u8; SESSION]) -> Answer {
        match self {
            Program::Library => call.by_library(lent.image, session),
            Program::Model => call.by_model(&lent.by_model, session),
        }
    }

    pub fn rows(self, call: &RowCall, lent: &Checked, rows: &mut Lent) -> Answer {
        match self {
            Program::Library => call.by_library(lent.image, rows),
            Program::Model => call.by_model(&lent.by_model, rows),
        }
    }

    pub fn maps(self, call: &MapCall, lent: &Checked, rows: &mut Lent) -> Answer {
        match self {
            Program::Library => call.by_library(lent.image, rows),
            Program::Model => call.by_model(&lent.by_model, rows),
        }
    }

    pub fn dominates(self, lent: &Checked, pair: &Pair) -> Answer {
        let (call, mut out) = (PairCall::Dominates, [0; LABEL]);
        match self {
            Program::Library => call.by_library(lent.image, pair, &mut out),
            Program::Model => call.by_model(&lent.by_model, pair, &mut out),
        }
    }
}

/// Which of the privileges that have an effect on verdicts all users of a policy hold. The other four
/// are as they are.
#[derive(Clone, Copy, Debug, PartialEq, Eq)]
pub enum Held {
    Nothing,
    /// Only trees of edition 1 have it.
    CompAccess,
    /// At least one of the two.
    ReadOrFull,
}

impl Held {
    /// All by which more is read than is dominated.
    pub fn of(variant: Variant) -> &'static [Held] {
        match variant.has_compaccess() {
            true => &[Held::CompAccess, Held::ReadOrFull],
            false => &[Held::ReadOrFull],
        }
    }

    fn give(self, user: &mut User, rng: &mut Rng) {
        let held = match self {
            Held::Nothing => 0,
            Held::CompAccess => COMPACCESS,
            Held::ReadOrFull => rng.range(1, 3) as u8 | user.privileges & COMPACCESS,
        };
        user.privileges = user.privileges & !(READ | FULL | COMPACCESS) | held;
    }
}

/// A label record under a session.
#[derive(Debug)]
pub struct Beside {
    pub session: [u8; SESSION],
    pub record: Label,
    /// Whether a label was changed since the session was opened.
    pub is_changed: bool,
    /// Whether the session reads a row of the record's tag.
    pub reads: bool,
    /// Whether the session's label dominates the record's.
    pub dominates: bool,
}

/// Shows every label record of the policy of an edition, a profile and a seed under sessions of its users: as
/// they open, and after each change that is done.
pub fn each_record(
    (variant, seed): (Variant, u64),
    held: Held,
    program: Program,
    mut see: impl FnMut(&Beside),
) {
    let mut walk = Walk::new(variant, seed);
    let Walk { policy, rng, .. } = &mut walk;
    let users = policy.users.iter_mut();
    users.for_each(|user| held.give(user, rng));
    let image = to_image(policy);
    let lent = Checked::new(&image);
    let records = policy.labels.clone();
    for name in asked(policy) {
        let mut session = [walk.rng.byte(); SESSION];
        let mut call = Call::Open(name);
        for at in 0..=CHANGES {
            let answer = program.call(&call, &lent, &mut session);
            assert!(at > 0 || answer == Answer::Done(0), "seed {seed}: {call:?}");
            if answer == Answer::Done(0) {
                for record in &records {
                    let (reads, dominates) = both(program, &lent, &session, record);
                    see(&Beside {
                        session,
                        record: record.clone(),
                        is_changed: at > 0,
                        reads,
                        dominates,
                    });
                }
            }
            call = change(&mut walk, &session);
        }
    }
}

/// The names of the users that are asked. Where a policy has many label records it is one.
fn asked(policy: &Policy) -> Vec<Vec<u8>> {
    let count = match policy.labels.len() {
        0..=MANY_LABELS => USERS,
        _ => 1,
    };
    let users = policy.users.iter().take(count);
    users.map(|user| user.name.clone().into()).collect()
}

fn change(walk: &mut Walk, session: &[u8; SESSION]) -> Call {
    match walk.rng.once_in(3) {
        true => walk.new_row_label(session),
        false => walk.new_label(session),
    }
}

/// Whether the session reads a row of the record's tag, and whether its label dominates the record's.
/// Neither is refused.
fn both(program: Program, lent: &Checked, session: &[u8; SESSION], record: &Label) -> (bool, bool) {
    let mut label = [0; LABEL];
    label.copy_from_slice(&session[LABEL_AT..ROW_AT]);
    let reads = program.call(&Call::MayRead(record.tag), lent, &mut session.clone());
    let dominates = program.dominates(lent, &[label, record.to_bytes()]);
    let is_yes = |answer: Answer| match answer {
        Answer::Done(1) => true,
        Answer::Done(0) => false,
        _ => panic!("{answer:?}: {session:?}, {record:?}"),
    };
    (is_yes(reads), is_yes(dominates))
}
