//! The vectors of label text.

use super::parts::{parts_with, Form};
use super::{first_word, read_refusal};
use crate::builder::{Policy, Variant};
use crate::ffi::Answer;

pub struct Vector {
    /// The line, for a wrong answer.
    pub line: &'static str,
    pub policy: Policy,
    pub text: &'static str,
    pub expected: Expected,
}

pub enum Expected {
    Printed(&'static str),
    Refused(Answer),
}

pub fn label_text(variant: Variant) -> Vec<Vector> {
    let mut vectors = Vec::new();
    for part in parts_with(variant, Form::LabelText) {
        for line in part.cases {
            let (_, case) = first_word(line);
            let (text, expected) = read_case(case);
            vectors.push(Vector {
                line,
                policy: part.policy.clone(),
                text,
                expected,
            });
        }
    }
    vectors
}

fn read_case(case: &'static str) -> (&'static str, Expected) {
    if let Some((text, refusal)) = case.split_once('!') {
        let refused = read_refusal(refusal).expect("a refusal's number");
        return (text, Expected::Refused(refused));
    }
    if let Some(text) = case.strip_suffix("==") {
        return (text, Expected::Printed(text));
    }
    let (text, printed) = case.split_once("==").expect("==, or ! and a number");
    (text, Expected::Printed(printed))
}
