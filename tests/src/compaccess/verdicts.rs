//! Verdicts before and after a clearing move, beside the rules of document 01 on the builder's sets.

use crate::builder::{to_image, Edition, Label, Policy, User};
use crate::calls::Call;
use crate::compare::{CallTally, Checked};
use crate::ffi::{Answer, SESSION};
use crate::pairs::Program;
use crate::walk::{label_at, Walk, LABEL_AT};

const READ: u8 = 1;
const FULL: u8 = 2;

/// How many calls are made for sessions, and how many label records are asked under each.
const CALLS: usize = 30;
const RECORDS: usize = 100;

/// A verdict on a label record under a session of edition 1.
#[derive(Debug)]
pub struct Verdict {
    pub call: Call,
    pub session: [u8; SESSION],
    /// Whether the session's user holds COMPACCESS.
    pub holds: bool,
    /// The answers on the image and on the cleared one.
    pub before: bool,
    pub after: bool,
    /// Whether the labels, READ or FULL allow it.
    pub otherwise: bool,
    /// Whether COMPACCESS would.
    pub by_compaccess: bool,
}

impl Verdict {
    /// Users without the bit keep every verdict, and holders all but those that COMPACCESS alone gave.
    pub fn assert_right(&self, case: &str) {
        let is_lost = self.holds && self.by_compaccess && !self.otherwise;
        assert_eq!(self.after, self.otherwise, "{case}: {self:?}");
        assert_eq!(self.before, self.after || is_lost, "{case}: {self:?}");
    }

    fn outcome(&self) -> &'static str {
        match (self.holds, self.before, self.after) {
            (true, true, true) => "a holder keeps yes",
            (true, false, _) => "a holder keeps no",
            (true, true, false) => "a holder loses it",
            (false, true, _) => "another user keeps yes",
            (false, false, _) => "another user keeps no",
        }
    }
}

#[derive(Debug, Default)]
pub struct VerdictTally(CallTally);

impl VerdictTally {
    pub fn add(&mut self, verdict: &Verdict) {
        self.0.count(verdict.call.name(), verdict.outcome());
    }

    /// Asks that each outcome came at least so often to both verdicts.
    pub fn assert_varied(&self, least: usize) {
        let outcomes = [
            "a holder keeps yes",
            "a holder keeps no",
            "a holder loses it",
            "another user keeps yes",
            "another user keeps no",
        ];
        for call in ["may_read", "may_write"] {
            self.0.assert_least(call, &outcomes, least);
        }
    }
}

/// The rules for a session of a user.
struct Rules<'a> {
    policy: &'a Policy,
    user: &'a User,
    label: Label,
}

impl Rules<'_> {
    fn has_level(&self, row: &Label, is_write: bool) -> bool {
        let lowest = if is_write {
            self.user.levels.minimum
        } else {
            0
        };
        (lowest..=self.label.level).contains(&row.level)
    }

    /// READ and FULL, or the labels.
    fn allow(&self, row: &Label, is_write: bool) -> bool {
        let all = if is_write { FULL } else { READ | FULL };
        let is_met = match is_write {
            true => self.writes(row),
            false => self.reads(row),
        };
        self.user.privileges & all != 0 || self.has_level(row, is_write) && is_met
    }

    fn reads(&self, row: &Label) -> bool {
        let below = self.policy.below(self.label.groups);
        let has_group = row.groups.is_empty() || row.groups.meets(below);
        has_group && row.compartments.is_in(self.label.compartments)
    }

    fn writes(&self, row: &Label) -> bool {
        let (session, user) = (&self.label, self.user);
        if row.groups.is_empty() {
            let write = session.compartments & user.compartments.write;
            return row.compartments.is_in(write);
        }
        let write = self.policy.below(session.groups) & self.policy.below(user.groups.write);
        row.groups.meets(write) && row.compartments.is_in(session.compartments)
    }

    /// COMPACCESS, for one who holds it.
    fn compaccess(&self, row: &Label, is_write: bool) -> bool {
        let session = self.label.compartments;
        let asked = match is_write {
            true => session & self.user.compartments.write,
            false => session,
        };
        let has_compartments = !row.compartments.is_empty() && row.compartments.is_in(asked);
        has_compartments && self.has_level(row, is_write)
    }
}

/// Whether the verdict is yes. It isn't refused.
fn is_yes(program: Program, call: &Call, lent: &Checked, session: &[u8; SESSION]) -> bool {
    let answer = program.call(call, lent, &mut session.clone());
    assert!(matches!(answer, Answer::Done(0 | 1)), "{answer:?}");
    answer == Answer::Done(1)
}

/// Shows verdicts on label records of a seed's policy under sessions of its users, opened and changed, by a
/// program that is told how to clear an image.
pub fn each_verdict(
    seed: u64,
    program: Program,
    clear: impl Fn(&[u8]) -> Vec<u8>,
    mut see: impl FnMut(&Verdict),
) {
    let mut walk = Walk::new(Edition::One, seed);
    let image = to_image(&walk.policy);
    let cleared = clear(&image);
    let [old, new] = [&image, &cleared].map(|image| Checked::new(image));
    walk.wander(&old.by_model, CALLS);
    for session in walk.remembered() {
        let rules = Rules {
            policy: &walk.policy,
            user: &walk.policy.users[usize::from(session[0])],
            label: label_at(session, LABEL_AT),
        };
        for row in walk.policy.labels.iter().take(RECORDS) {
            for call in [Call::MayRead(row.tag), Call::MayWrite(row.tag)] {
                let is_write = matches!(call, Call::MayWrite(_));
                see(&Verdict {
                    session: *session,
                    holds: rules.user.holds_compaccess(),
                    before: is_yes(program, &call, &old, session),
                    after: is_yes(program, &call, &new, session),
                    otherwise: rules.allow(row, is_write),
                    by_compaccess: rules.compaccess(row, is_write),
                    call,
                });
            }
        }
    }
}
