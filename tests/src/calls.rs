//! The calls on sessions and on two labels as values, and the answers of both programs to them. What
//! is lent and what is handed out are the same bytes for both.

use crate::compare::expected;
use crate::ffi::{self, Answer, LABEL, SESSION};
use crate::model::{self, Image, Label, Refusal, Session};
use std::fmt::{self, Debug, Formatter};

/// A call that is lent an image and a session; opening only writes the session.
#[derive(Clone, PartialEq, Eq)]
pub enum Call {
    Open(Vec<u8>),
    SetLabel(Vec<u8>),
    SetRowLabel(Vec<u8>),
    MayRead(u32),
    MayWrite(u32),
}

impl Call {
    pub fn name(&self) -> &'static str {
        match self {
            Call::Open(_) => "open",
            Call::SetLabel(_) => "set_label",
            Call::SetRowLabel(_) => "set_row_label",
            Call::MayRead(_) => "may_read",
            Call::MayWrite(_) => "may_write",
        }
    }

    /// Whether the answer is yes or no.
    pub fn is_verdict(&self) -> bool {
        matches!(self, Call::MayRead(_) | Call::MayWrite(_))
    }

    /// The text of a label change.
    pub fn text(&self) -> Option<&[u8]> {
        match self {
            Call::SetLabel(text) | Call::SetRowLabel(text) => Some(text),
            _ => None,
        }
    }

    pub fn by_library(&self, image: &[u8], session: &mut [u8; SESSION]) -> Answer {
        match self {
            Call::Open(name) => ffi::open(image, name, session),
            Call::SetLabel(text) => ffi::set_label(image, session, text),
            Call::SetRowLabel(text) => ffi::set_row_label(image, session, text),
            Call::MayRead(tag) => ffi::may_read(image, session, *tag),
            Call::MayWrite(tag) => ffi::may_write(image, session, *tag),
        }
    }

    /// The image is checked before, once for many calls: what the check gave is lent.
    pub fn by_model(&self, image: &Result<Image, Refusal>, session: &mut [u8; SESSION]) -> Answer {
        match image {
            Ok(image) => expected(self.value(image, session)),
            Err(refusal) => expected(Err(*refusal)),
        }
    }

    fn value(&self, image: &Image, session: &mut [u8; SESSION]) -> Result<u64, Refusal> {
        let lent = Session::read(session);
        let given = match self {
            Call::MayRead(tag) => return model::may_read(image, &lent, *tag).map(u64::from),
            Call::MayWrite(tag) => return model::may_write(image, &lent, *tag).map(u64::from),
            Call::Open(name) => model::open(image, name)?,
            Call::SetLabel(text) => model::set_label(image, &lent, text)?,
            Call::SetRowLabel(text) => model::set_row_label(image, &lent, text)?,
        };
        *session = given.to_bytes();
        Ok(0)
    }
}

/// The call and what it is told, for a wrong answer.
impl Debug for Call {
    fn fmt(&self, formatter: &mut Formatter) -> fmt::Result {
        let name = self.name();
        match self {
            Call::Open(text) | Call::SetLabel(text) | Call::SetRowLabel(text) => {
                write!(formatter, "{name} \"{}\"", text.escape_ascii())
            }
            Call::MayRead(tag) | Call::MayWrite(tag) => write!(formatter, "{name} {tag}"),
        }
    }
}

/// A call that is lent two labels. Dominance is lent an image too; merging writes a third label.
#[derive(Clone, Debug, PartialEq, Eq)]
pub enum PairCall {
    Dominates,
    StrictlyDominates,
    Merge(Vec<u8>),
}

/// Two labels in their bytes.
pub type Pair = [[u8; LABEL]; 2];

impl PairCall {
    pub const QUESTIONS: [PairCall; 2] = [PairCall::Dominates, PairCall::StrictlyDominates];

    pub fn name(&self) -> &'static str {
        match self {
            PairCall::Dominates => "dominates",
            PairCall::StrictlyDominates => "strictly_dominates",
            PairCall::Merge(_) => "merge",
        }
    }

    /// Whether the answer is yes or no.
    pub fn is_verdict(&self) -> bool {
        !matches!(self, PairCall::Merge(_))
    }

    /// Merging isn't lent the image.
    pub fn by_library(&self, image: &[u8], pair: &Pair, out: &mut [u8; LABEL]) -> Answer {
        let [first, second] = pair;
        match self {
            PairCall::Dominates => ffi::dominates(image, first, second),
            PairCall::StrictlyDominates => ffi::strictly_dominates(image, first, second),
            PairCall::Merge(letters) => ffi::merge(first, second, letters, out),
        }
    }

    /// What the check gave is lent, as in `Call::by_model`.
    pub fn by_model(
        &self,
        image: &Result<Image, Refusal>,
        pair: &Pair,
        out: &mut [u8; LABEL],
    ) -> Answer {
        let [first, second] = pair.each_ref().map(Label::read);
        let image = image.as_ref().map_err(|refusal| *refusal);
        let verdict = match self {
            PairCall::Dominates => image.and_then(|it| model::dominates(it, &first, &second)),
            PairCall::StrictlyDominates => {
                image.and_then(|it| model::strictly_dominates(it, &first, &second))
            }
            PairCall::Merge(letters) => {
                let merged = model::merge(&first, &second, letters);
                return expected(merged.map(|label| {
                    *out = label.to_bytes();
                    0
                }));
            }
        };
        expected(verdict.map(u64::from))
    }
}
