//! What was seen on walks, to know that they go everywhere.

use super::reasons::{reason, REASONS};
use super::{is_ruled, label_at, Step, LABEL_AT};
use crate::builder::{Edition, Set, Variant};
use crate::calls::Call;
use crate::compare::CallTally;
use crate::ffi::Answer;
use crate::spelling::has_small;
use std::collections::BTreeSet;

/// For each call the answers that it can give on an accepted image.
const OUTCOMES: [(&str, &[&str]); 5] = [
    ("open", &["done", "4"]),
    (
        "set_label",
        &["done", "19", "5", "6", "7", "8", "9", "10", "11"],
    ),
    (
        "set_row_label",
        &["done", "19", "5", "6", "7", "8", "9", "10"],
    ),
    ("may_read", &["yes", "no", "19"]),
    ("may_write", &["yes", "no", "19"]),
];

/// The privileges by which a call sees all rows: READ or FULL, and FULL.
const SEES_ALL: [(&str, u8); 2] = [("may_read", 1 | 2), ("may_write", 2)];

#[derive(Debug, Default)]
pub struct WalkTally {
    answers: CallTally,
    /// Verdicts that went by labels: a known tag, and neither READ nor FULL.
    ruled: CallTally,
    /// Verdicts on tags that no label has, for users who see all rows.
    unknown: CallTally,
    /// Calls after which the session label has a group past the 64th.
    high: CallTally,
    /// Label changes by texts of over 4,096 bytes.
    long: CallTally,
    /// Label changes by texts with small letters.
    small: CallTally,
    /// Why a call was answered as it was, in the release profile.
    reasons: CallTally,
    /// The privileges of users whose verdicts were not refused.
    privileges: BTreeSet<u8>,
}

impl WalkTally {
    pub fn add(&mut self, step: &Step) {
        let (name, is_verdict) = (step.call.name(), step.call.is_verdict());
        let is_done = matches!(step.answer, Answer::Done(_));
        self.answers.add(name, is_verdict, step.answer);
        if is_verdict && is_done {
            self.privileges.extend(step.privileges);
        }
        if is_verdict && step.is_known && step.privileges.is_some_and(is_ruled) {
            self.ruled.add(name, is_verdict, step.answer);
        }
        if is_verdict && is_done && !step.is_known && sees_all(&step.call, step.privileges) {
            self.unknown.add(name, is_verdict, step.answer);
        }
        if let Some(text) = step.call.text() {
            if text.len() > 4_096 {
                self.long.add(name, is_verdict, step.answer);
            }
            if has_small(text) {
                self.small.add(name, is_verdict, step.answer);
            }
        }
        if step.policy.variant().is_release() {
            let reason = reason(step).into_iter();
            reason.for_each(|reason| self.reasons.count(name, reason));
        }
        let groups = label_at(&step.session, LABEL_AT).groups;
        if !groups.is_in(Set::first(64)) {
            self.high.add(name, is_verdict, step.answer);
        }
    }

    /// Asks that each call gave each of its answers at least so often, label changes also to texts with small
    /// letters; that neither yes nor no is rare, also where labels decide, that users had all privilege bytes that
    /// there are, and that in the release profile each reason came so often too. Unknown tags are seen with READ and
    /// FULL in edition 1, and in edition 2 they are not.
    pub fn assert_varied(&self, variant: Variant, least: usize) {
        for (call, outcomes) in OUTCOMES {
            self.answers.assert_least(call, outcomes, least);
            self.answers.assert_of_images(variant.profile, call, least);
        }
        for (call, outcomes) in &OUTCOMES[1..3] {
            self.small.assert_least(call, outcomes, least / 2);
        }
        let (always, never) = match variant.edition {
            Edition::One => ("yes", "no"),
            Edition::Two => ("no", "yes"),
        };
        for verdict in ["may_read", "may_write"] {
            self.answers.assert_both(verdict);
            self.ruled.assert_both(verdict);
            self.unknown.assert_least(verdict, &[always], least);
            assert_eq!(self.unknown.times(verdict, never), 0, "{verdict}");
        }
        if variant.edition == Edition::Two {
            self.assert_high(least);
        }
        if variant.is_release() {
            for (call, reasons) in REASONS {
                self.reasons.assert_least(call, reasons, least);
            }
        }
        assert_eq!(self.privileges.len(), variant.privilege_bytes());
    }

    /// Asks that groups which only edition 2 has came in sessions at least so often, and at times texts
    /// that only edition 2 reads.
    fn assert_high(&self, least: usize) {
        let outcomes: [(&str, &[&str]); 5] = [
            ("open", &["done"]),
            ("set_label", &["done", "19", "8", "9", "10", "11"]),
            ("set_row_label", &["done", "19", "8", "9", "10"]),
            ("may_read", &["yes", "no", "19"]),
            ("may_write", &["yes", "no", "19"]),
        ];
        for (call, outcomes) in outcomes {
            self.high.assert_least(call, outcomes, least);
        }
        for call in ["set_label", "set_row_label"] {
            self.long
                .assert_least(call, &["done", "6", "7"], least / 10);
        }
    }
}

fn sees_all(call: &Call, privileges: Option<u8>) -> bool {
    let mut held = SEES_ALL.iter().filter(|(name, _)| *name == call.name());
    held.any(|(_, bits)| privileges.is_some_and(|it| it & bits != 0))
}
