//! The vectors of whole images: accepted or refused.

use super::parts::{parts_with, Form};
use super::{first_word, question_and_answer, read_refusal};
use crate::builder::{to_image, Variant};
use crate::ffi::Answer;

pub struct ImageCase {
    /// The line, for a wrong answer.
    pub line: &'static str,
    pub image: Vec<u8>,
    pub answer: Answer,
}

/// All cases of an edition and a profile: ID check = accepted, or a refusal.
pub fn images(variant: Variant) -> Vec<ImageCase> {
    let mut cases = Vec::new();
    for part in parts_with(variant, Form::Check) {
        let image = to_image(&part.policy);
        cases.extend(part.cases.into_iter().map(|line| ImageCase {
            line,
            image: image.clone(),
            answer: read_answer(line),
        }));
    }
    cases
}

fn read_answer(line: &'static str) -> Answer {
    let (question, answer) = question_and_answer(first_word(line).1);
    assert_eq!(question, "check", "{line}");
    match answer {
        "accepted" => Answer::Done(0),
        refusal => read_refusal(refusal).expect(line),
    }
}
