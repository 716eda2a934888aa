//! The calls on a table's rows as values, and the answers of both programs to them. What is lent and
//! what is written are the same bytes for both.

use crate::compare::expected;
use crate::ffi::{self, Answer, SESSION};
use crate::model::{self, Image, Masked, Refusal, Session};
use std::fmt::{self, Debug, Formatter};

/// What a row call is lent beside the image and what it is told. A read, plain or mapped, writes in the buffer
/// and an update in the table; the session is only looked at.
#[derive(Clone, PartialEq, Eq)]
pub struct Lent {
    pub session: [u8; SESSION],
    pub table: Vec<u8>,
    pub buffer: Vec<u8>,
}

impl Lent {
    /// Where two differ first, in words.
    pub fn difference(&self, other: &Lent) -> Option<String> {
        let parts: [(&str, &[u8], &[u8]); 3] = [
            ("session", &self.session, &other.session),
            ("table", &self.table, &other.table),
            ("buffer", &self.buffer, &other.buffer),
        ];
        let (name, one, two) = parts.into_iter().find(|(_, one, two)| one != two)?;
        let at = first_difference(one, two);
        let lengths = (one.len(), two.len());
        Some(format!("{name} of {lengths:?} bytes, from byte {at} on"))
    }
}

/// The first place at which two slices differ; where one begins the other, the end of the shorter.
pub fn first_difference(one: &[u8], two: &[u8]) -> usize {
    let differs = one.iter().zip(two).position(|(one, two)| one != two);
    differs.unwrap_or(one.len().min(two.len()))
}

#[derive(Clone, PartialEq, Eq)]
pub enum RowCall {
    Read {
        width: usize,
    },
    Update {
        width: usize,
        n: usize,
        payload: Vec<u8>,
    },
    Masked {
        width: usize,
        place: usize,
        mask: Vec<u8>,
    },
    ReadMapped {
        width: usize,
        map: Vec<u8>,
    },
}

impl RowCall {
    pub fn name(&self) -> &'static str {
        match self {
            RowCall::Read { .. } => "read",
            RowCall::Update { .. } => "update",
            RowCall::Masked { .. } => "masked",
            RowCall::ReadMapped { .. } => "read_mapped",
        }
    }

    pub fn width(&self) -> usize {
        match self {
            RowCall::Read { width }
            | RowCall::Update { width, .. }
            | RowCall::Masked { width, .. }
            | RowCall::ReadMapped { width, .. } => *width,
        }
    }

    /// Whether it hands rows out in the buffer.
    pub fn hands_out(&self) -> bool {
        matches!(self, RowCall::Read { .. } | RowCall::ReadMapped { .. })
    }

    /// The kind of an answer: a refusal's number, or what was done.
    pub fn outcome(&self, answer: Answer) -> String {
        let done = match (self, answer) {
            (_, Answer::Refused { number, .. }) => return number.to_string(),
            (RowCall::Update { .. }, _) => "done",
            (RowCall::Masked { .. }, Answer::Done(0)) => "mask",
            (RowCall::Masked { .. }, _) => "payload",
            (_, Answer::Done(0)) => "no rows",
            _ => "rows",
        };
        done.to_string()
    }

    pub fn by_library(&self, image: &[u8], lent: &mut Lent) -> Answer {
        let (session, table) = (&lent.session, &mut lent.table);
        match self {
            RowCall::Read { width } => ffi::read(image, session, table, *width, &mut lent.buffer),
            RowCall::Update { width, n, payload } => {
                ffi::update(image, session, table, *width, *n, payload)
            }
            RowCall::Masked { width, place, mask } => {
                ffi::masked(image, session, table, *width, *place, mask)
            }
            RowCall::ReadMapped { width, map } => {
                ffi::read_mapped(image, session, table, *width, map, &mut lent.buffer)
            }
        }
    }

    /// The image is checked before, once for many calls: what the check gave is lent.
    pub fn by_model(&self, image: &Result<Image, Refusal>, lent: &mut Lent) -> Answer {
        match image {
            Ok(image) => expected(self.value(image, lent)),
            Err(refusal) => expected(Err(*refusal)),
        }
    }

    fn value(&self, image: &Image, lent: &mut Lent) -> Result<u64, Refusal> {
        let session = Session::read(&lent.session);
        let room = lent.buffer.len();
        match self {
            RowCall::Read { width } => {
                let rows = model::read(image, &session, &lent.table, *width, room)?;
                Ok(hand_out(&rows, &mut lent.buffer))
            }
            RowCall::Update { width, n, payload } => {
                lent.table = model::update(image, &session, &lent.table, *width, *n, payload)?;
                Ok(0)
            }
            RowCall::Masked { width, place, mask } => {
                let part = model::masked(image, &session, &lent.table, *width, *place, mask)?;
                Ok(u64::from(matches!(part, Masked::Payload(_))))
            }
            RowCall::ReadMapped { width, map } => {
                let rows = model::read_mapped(image, &session, &lent.table, *width, map, room)?;
                Ok(hand_out(&rows, &mut lent.buffer))
            }
        }
    }
}

/// Lays rows down at the front of a buffer, and tells how many.
fn hand_out(rows: &[&[u8]], buffer: &mut [u8]) -> u64 {
    let bytes = rows.concat();
    buffer[..bytes.len()].copy_from_slice(&bytes);
    rows.len() as u64
}

/// The call and what it is told, for a wrong answer.
impl Debug for RowCall {
    fn fmt(&self, formatter: &mut Formatter) -> fmt::Result {
        let (name, width) = (self.name(), self.width());
        write!(formatter, "{name} at width {width}")?;
        match self {
            RowCall::Read { .. } => Ok(()),
            RowCall::Update { n, payload, .. } => {
                write!(formatter, ", n {n}, a payload of {} bytes", payload.len())
            }
            RowCall::Masked { place, mask, .. } => {
                write!(formatter, ", place {place}, a mask of {} bytes", mask.len())
            }
            RowCall::ReadMapped { map, .. } => {
                write!(formatter, ", a map of {} bytes", map.len())
            }
        }
    }
}
