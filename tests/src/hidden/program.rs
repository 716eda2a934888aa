//! The programs that a host's calls are made to.

use crate::calls::Call;
use crate::ffi::Answer;
use crate::model::{accepted, Image, Refusal};
use crate::row_calls::{Lent, RowCall};
use std::fmt::{self, Debug, Formatter};
use std::hint::black_box;

/// A call on a session or on rows.
#[derive(Clone, PartialEq, Eq)]
pub enum HostCall {
    Session(Call),
    Rows(RowCall),
}

impl HostCall {
    pub fn name(&self) -> &'static str {
        match self {
            HostCall::Session(call) => call.name(),
            HostCall::Rows(call) => call.name(),
        }
    }

    /// Whether the session that stands there after the call is one that it returned. A label change
    /// returns the session as it was where it is refused; an opening returns none then.
    pub fn returns_session(&self, answer: Answer) -> bool {
        match self {
            HostCall::Session(Call::Open(_)) => answer == Answer::Done(0),
            HostCall::Session(call) => !call.is_verdict(),
            HostCall::Rows(_) => false,
        }
    }

    fn by_library(&self, image: &[u8], lent: &mut Lent) -> Answer {
        match self {
            HostCall::Session(call) => call.by_library(image, &mut lent.session),
            HostCall::Rows(call) => call.by_library(image, lent),
        }
    }

    fn by_model(&self, image: &Result<Image, Refusal>, lent: &mut Lent) -> Answer {
        match self {
            HostCall::Session(call) => call.by_model(image, &mut lent.session),
            HostCall::Rows(call) => call.by_model(image, lent),
        }
    }
}

impl Debug for HostCall {
    fn fmt(&self, formatter: &mut Formatter) -> fmt::Result {
        match self {
            HostCall::Session(call) => call.fmt(formatter),
            HostCall::Rows(call) => call.fmt(formatter),
        }
    }
}

/// A program that is lent one image with each call.
pub trait Program {
    /// A run begins.
    fn start(&self) {}

    fn ask(&self, call: &HostCall, lent: &mut Lent) -> Answer;
}

pub struct Model<'a>(Result<Image<'a>, Refusal>);

impl Model<'_> {
    pub fn new(image: &[u8]) -> Model<'_> {
        Model(accepted(image))
    }
}

impl Program for Model<'_> {
    fn ask(&self, call: &HostCall, lent: &mut Lent) -> Answer {
        call.by_model(&self.0, lent)
    }
}

/// The library, which has to give the model's answer and leave every lent byte as the model does. A
/// difference names the case.
pub struct Library<'a> {
    case: &'a str,
    image: &'a [u8],
    model: Model<'a>,
}

impl<'a> Library<'a> {
    pub fn new(case: &'a str, image: &'a [u8]) -> Library<'a> {
        Library {
            case,
            image,
            model: Model::new(image),
        }
    }
}

impl Program for Library<'_> {
    fn ask(&self, call: &HostCall, lent: &mut Lent) -> Answer {
        let case = self.case;
        let mut wanted = lent.clone();
        let expected = self.model.ask(call, &mut wanted);
        let (image, asked) = (self.image.to_vec(), call.clone());
        let answer = asked.by_library(black_box(&image), black_box(lent));
        assert_eq!(answer, expected, "{case}: {call:?}");
        assert_eq!(lent.difference(&wanted), None, "{case}: {call:?}");
        assert!(*black_box(&image) == *self.image, "{case}: image changed");
        assert!(
            *black_box(&asked) == *call,
            "{case}: text, payload or map changed"
        );
        answer
    }
}
