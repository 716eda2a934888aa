//! The calls of request R-4 as values, and the answers of both programs to them. What is lent and what is
//! written are the same bytes for both.

use crate::compare::{expected, written};
use crate::ffi::{self, Answer};
use crate::model::{self, Image, Refusal, Session};
use crate::row_calls::{Lent, RowCall};

#[derive(Clone, Debug, PartialEq, Eq)]
pub enum MapCall {
    /// Writes the session's map in the buffer.
    Make,
    /// Judges a map.
    Judge(Vec<u8>),
    /// Reads rows, by a map or plainly.
    Read(RowCall),
}

impl MapCall {
    pub fn name(&self) -> &'static str {
        match self {
            MapCall::Make => "map",
            MapCall::Judge(_) => "judge_map",
            MapCall::Read(call) => call.name(),
        }
    }

    pub fn by_library(&self, image: &[u8], lent: &mut Lent) -> Answer {
        match self {
            MapCall::Make => ffi::map(image, &lent.session, &mut lent.buffer),
            MapCall::Judge(map) => ffi::judge_map(image, &lent.session, map),
            MapCall::Read(call) => call.by_library(image, lent),
        }
    }

    /// The image is checked before, once for many calls: what the check gave is lent.
    pub fn by_model(&self, image: &Result<Image, Refusal>, lent: &mut Lent) -> Answer {
        let session = Session::read(&lent.session);
        let checked = image.as_ref().map_err(|refusal| *refusal);
        match self {
            MapCall::Make => {
                let map = checked.and_then(|it| model::map(it, &session, lent.buffer.len()));
                let (answer, after) = written(map, &lent.buffer);
                lent.buffer = after;
                answer
            }
            MapCall::Judge(map) => {
                let judged = checked.and_then(|it| model::judge_map(it, &session, map));
                expected(judged.map(|()| 0))
            }
            MapCall::Read(call) => call.by_model(image, lent),
        }
    }
}
