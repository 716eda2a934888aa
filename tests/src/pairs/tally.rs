//! What was seen of two labels, to know that the pairs go everywhere.

use super::compared::Step;
use super::kinds::Kind;
use super::lacking::Lacking;
use super::reading::Beside;
use crate::builder::{Edition, Profile, Set, Variant};
use crate::calls::PairCall;
use crate::compare::CallTally;
use crate::ffi::Answer;

#[derive(Debug, Default)]
pub struct PairTally {
    answers: CallTally,
    /// The answers of `dominates` that are not refused, for each kind of pair.
    kinds: CallTally,
    /// What was lacking where 18 was given, and the numbers that came before 18.
    lacking: CallTally,
    /// The answers that are not refused where both labels have a group, and only groups past the 64th.
    high: CallTally,
}

impl PairTally {
    pub fn add(&mut self, step: &Step) {
        let is_first = step.call == PairCall::Dominates;
        self.answers.add(step.call.name(), true, step.answer);
        let is_done = matches!(step.answer, Answer::Done(_));
        if is_first && is_done {
            self.kinds.add(step.kind.name(), true, step.answer);
        }
        let is_high = |set: Set| !set.is_empty() && !set.meets(Set::first(64));
        if is_done && step.labels.iter().all(|label| is_high(label.groups)) {
            self.high.add(step.call.name(), true, step.answer);
        }
        match (step.lacking, step.answer) {
            (Some(lacking), Answer::Refused { number: 18, .. }) => {
                self.lacking.count("18", lacking.name());
            }
            (Some(_), Answer::Refused { number, .. }) => {
                self.lacking.count("an image", number.to_string());
            }
            _ => {}
        }
    }

    /// Asks that so many pairs were compared, that each refusal came at least so often to both
    /// questions, also where an image's number came before 18, and that neither yes nor no is rare:
    /// over all pairs, and of those with groups one, two and three steps apart or, in the release profile, of
    /// those that differ in what they are released to. In edition 2 yes and no came so often also where groups
    /// decide that edition 1 has not.
    pub fn assert_varied(&self, variant: Variant, pairs: usize, least: usize) {
        let Variant { edition, profile } = variant;
        for call in PairCall::QUESTIONS.map(|call| call.name()) {
            let [yes, no] = ["yes", "no"].map(|answer| self.answers.times(call, answer));
            assert!(yes + no >= pairs, "{call}: {yes} yes, {no} no");
            self.answers.assert_both(call);
            self.answers.assert_of_images(profile, call, least);
            self.answers.assert_least(call, &["18"], least);
            if edition == Edition::Two {
                self.high.assert_least(call, &["yes", "no"], least);
            }
        }
        for kind in Kind::of(profile) {
            self.kinds.assert_least(kind.name(), &["yes", "no"], least);
        }
        let often: &[Kind] = match profile {
            Profile::Tree => &[Kind::OneStep, Kind::TwoSteps, Kind::ThreeSteps],
            Profile::Release => &[Kind::Released, Kind::NoGroups],
        };
        for kind in often {
            self.kinds.assert_both(kind.name());
        }
        for name in Lacking::names() {
            self.lacking.assert_least("18", &[&name], least);
        }
        self.lacking.assert_of_images(profile, "an image", least);
    }
}

/// What sessions read and what their labels dominate.
#[derive(Debug, Default)]
pub struct ReadingTally(CallTally);

impl ReadingTally {
    pub fn add(&mut self, beside: &Beside) {
        let session = match beside.is_changed {
            true => "changed",
            false => "opened",
        };
        let outcome = match (beside.reads, beside.dominates) {
            (true, true) => "yes",
            (false, false) => "no",
            (true, false) => "only read",
            (false, true) => "only dominated",
        };
        self.0.count(session, outcome);
    }

    /// Over opened and changed sessions.
    pub fn times(&self, outcome: &str) -> usize {
        self.0.times("opened", outcome) + self.0.times("changed", outcome)
    }

    /// Asks that there were so many of each session's records, and that neither yes nor no is rare.
    pub fn assert_both(&self, least: usize) {
        let all = self.times("yes") + self.times("no");
        assert!(all >= least, "{all} label records");
        for session in ["opened", "changed"] {
            self.0.assert_both(session);
        }
    }
}
