//! The vectors of dominance and merging.

use super::parts::{parts_with, Form};
use super::{first_word, question_and_answer, read_label, read_refusal, read_verdict};
use crate::builder::{to_image, Policy, Variant};
use crate::calls::{Pair, PairCall};
use crate::ffi::{Answer, LABEL};

/// What the merged label's bytes hold before.
const UNWRITTEN: [u8; LABEL] = [0xa5; LABEL];

pub struct PairCase {
    /// The line, for a wrong answer.
    pub line: &'static str,
    image: Vec<u8>,
    call: PairCall,
    labels: Pair,
    answer: Answer,
    merged: [u8; LABEL],
}

impl PairCase {
    /// Asks that the call gives its answer and its label.
    pub fn run(&self, ask: impl Fn(&PairCall, &[u8], &Pair, &mut [u8; LABEL]) -> Answer) {
        let mut out = UNWRITTEN;
        let answer = ask(&self.call, &self.image, &self.labels, &mut out);
        assert_eq!(answer, self.answer, "{}", self.line);
        assert_eq!(out, self.merged, "{}", self.line);
    }
}

/// All cases of an edition and a profile.
pub fn two_labels(variant: Variant) -> Vec<PairCase> {
    let mut cases = Vec::new();
    for part in parts_with(variant, Form::TwoLabels) {
        let read = |line| read_case(&part.policy, line);
        cases.extend(part.cases.into_iter().map(read));
    }
    cases
}

/// ID LABEL dominates LABEL = ANSWER, the same with "strictly", or with the letters of a merge.
fn read_case(policy: &Policy, line: &'static str) -> PairCase {
    let (_, case) = first_word(line);
    let (question, answer) = question_and_answer(case);
    let words: Vec<&str> = question.split(' ').collect();
    let [first, word, second] = words[..] else {
        panic!("two labels and a word between them: {line}");
    };
    let call = match word {
        "dominates" => PairCall::Dominates,
        "strictly" => PairCall::StrictlyDominates,
        letters => PairCall::Merge(letters.as_bytes().to_vec()),
    };
    let (answer, merged) = match call.is_verdict() {
        true => (read_verdict(answer).expect(line), UNWRITTEN),
        false => read_merged(policy, answer),
    };
    PairCase {
        line,
        image: to_image(policy),
        call,
        labels: [first, second].map(|text| read_label(policy, text).to_bytes()),
        answer,
        merged,
    }
}

/// A refusal or a label.
fn read_merged(policy: &Policy, answer: &str) -> (Answer, [u8; LABEL]) {
    match read_refusal(answer) {
        Some(refusal) => (refusal, UNWRITTEN),
        None => (Answer::Done(0), read_label(policy, answer).to_bytes()),
    }
}
