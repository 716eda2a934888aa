//! What a case asks of a session: a call on it, or an update of a table with one row.

use crate::calls::Call;
use crate::ffi::{Answer, SESSION};
use crate::model::{Image, Refusal};
use crate::row_calls::{Lent, RowCall};

const OLD: &[u8] = b"old";
const NEW: &[u8] = b"new";

#[derive(Clone, Debug, PartialEq, Eq)]
pub enum Asked {
    Session(Call),
    /// Of the only row, which has the tag.
    Update(u32),
}

impl Asked {
    /// The tag of the row that is asked about.
    pub fn tag(&self) -> Option<u32> {
        match self {
            Asked::Session(Call::MayRead(tag) | Call::MayWrite(tag)) | Asked::Update(tag) => {
                Some(*tag)
            }
            Asked::Session(_) => None,
        }
    }

    pub fn by_library(&self, image: &[u8], session: &mut [u8; SESSION]) -> Answer {
        match self {
            Asked::Session(call) => call.by_library(image, session),
            Asked::Update(tag) => update(*tag, session, |call, lent| call.by_library(image, lent)),
        }
    }

    /// What the check gave is lent, as in `Call::by_model`.
    pub fn by_model(&self, image: &Result<Image, Refusal>, session: &mut [u8; SESSION]) -> Answer {
        match self {
            Asked::Session(call) => call.by_model(image, session),
            Asked::Update(tag) => update(*tag, session, |call, lent| call.by_model(image, lent)),
        }
    }
}

/// The row has the new payload if the update is done, and the old one if it is refused.
fn update(
    tag: u32,
    session: &[u8; SESSION],
    ask: impl FnOnce(&RowCall, &mut Lent) -> Answer,
) -> Answer {
    let lent = |payload: &[u8]| Lent {
        session: *session,
        table: [&tag.to_le_bytes()[..], payload].concat(),
        buffer: Vec::new(),
    };
    let call = RowCall::Update {
        width: 4 + NEW.len(),
        n: 0,
        payload: NEW.to_vec(),
    };
    let mut given = lent(OLD);
    let answer = ask(&call, &mut given);
    let after = match answer {
        Answer::Done(_) => lent(NEW),
        Answer::Refused { .. } => lent(OLD),
    };
    assert_eq!(given.difference(&after), None, "{call:?}, tag {tag}");
    answer
}
