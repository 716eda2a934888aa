//! The plain calls in the shape of the library's (`brawnesk_tests::ffi`): bytes in, bytes and an answer
//! out. None is inlined, so that a short one can be counted by itself.

use super::label::{Label, Session};
use super::policy::{Class, Policy};
use super::reader::Reader;
use super::sessions::{self, Lent};
use super::{maps, print, rows, text, two_labels, verdicts, write};
use brawnesk_tests::compare::expected;
use brawnesk_tests::ffi::{Answer, LABEL, SESSION};
use brawnesk_tests::model::{self, Kind, Refusal};

#[inline(never)]
pub fn check(image: &[u8]) -> Answer {
    expected(Policy::accepted(image).map(|_| 0))
}

#[inline(never)]
pub fn name(image: &[u8], class: u8, place: u8) -> Answer {
    expected(name_span(image, class, place))
}

fn name_span(image: &[u8], class: u8, place: u8) -> Result<u64, Refusal> {
    let policy = Policy::accepted(image)?;
    let class = match class {
        1 => Class::Level,
        2 => Class::Compartment,
        3 => Class::Group,
        _ => return Err(Refusal::Component),
    };
    let span = policy.span(class, place.into()).ok_or(Refusal::Component)?;
    Ok((span.offset + 65_536 * span.length) as u64)
}

#[inline(never)]
pub fn parse(image: &[u8], text: &[u8], label: &mut [u8; LABEL]) -> Answer {
    let read = Policy::accepted(image).and_then(|policy| text::read(&policy, text));
    expected(read.map(|read| {
        *label = read.to_bytes();
        0
    }))
}

#[inline(never)]
pub fn print(image: &[u8], label: &[u8; LABEL], out: &mut [u8]) -> Answer {
    let policy = Policy::accepted(image);
    let length = policy.and_then(|policy| print::print(&policy, Label::read(label), out));
    expected(length.map(|length| length as u64))
}

#[inline(never)]
pub fn open(image: &[u8], name: &[u8], session: &mut [u8; SESSION]) -> Answer {
    let policy = Policy::accepted(image);
    handed_out(
        policy.and_then(|policy| sessions::open(&policy, name)),
        session,
    )
}

#[inline(never)]
pub fn set_label(image: &[u8], session: &mut [u8; SESSION], text: &[u8]) -> Answer {
    let changed = by_session(image, session, |lent| lent.set_label(text));
    handed_out(changed, session)
}

#[inline(never)]
pub fn set_row_label(image: &[u8], session: &mut [u8; SESSION], text: &[u8]) -> Answer {
    let changed = by_session(image, session, |lent| lent.set_row_label(text));
    handed_out(changed, session)
}

#[inline(never)]
pub fn may_read(image: &[u8], session: &[u8; SESSION], tag: u32) -> Answer {
    let verdict = by_session(image, session, |lent| Ok(verdicts::may_read(lent, tag)));
    expected(verdict.map(u64::from))
}

#[inline(never)]
pub fn may_write(image: &[u8], session: &[u8; SESSION], tag: u32) -> Answer {
    let verdict = by_session(image, session, |lent| Ok(verdicts::may_write(lent, tag)));
    expected(verdict.map(u64::from))
}

#[inline(never)]
pub fn read(
    image: &[u8],
    session: &[u8; SESSION],
    table: &[u8],
    width: usize,
    out: &mut [u8],
) -> Answer {
    let count = by_session(image, session, |lent| rows::read(lent, table, width, out));
    expected(count.map(|count| count as u64))
}

#[inline(never)]
pub fn update(
    image: &[u8],
    session: &[u8; SESSION],
    table: &mut [u8],
    width: usize,
    n: usize,
    payload: &[u8],
) -> Answer {
    let updated = by_session(image, session, |lent| {
        rows::update(lent, table, width, n, payload)
    });
    expected(updated.map(|()| 0))
}

/// The mask is told of by its 0, so its bytes are not looked at.
#[inline(never)]
pub fn masked(
    image: &[u8],
    session: &[u8; SESSION],
    table: &[u8],
    width: usize,
    place: usize,
    _mask: &[u8],
) -> Answer {
    let verdict = by_session(image, session, |lent| {
        rows::masked(lent, table, width, place)
    });
    expected(verdict.map(u64::from))
}

#[inline(never)]
pub fn map(image: &[u8], session: &[u8; SESSION], out: &mut [u8]) -> Answer {
    let length = by_session(image, session, |lent| maps::write(&Reader::new(lent), out));
    expected(length.map(|length| length as u64))
}

#[inline(never)]
pub fn judge_map(image: &[u8], session: &[u8; SESSION], map: &[u8]) -> Answer {
    let judged = by_session(image, session, |lent| maps::judge(&Reader::new(lent), map));
    expected(judged.map(|()| 0))
}

#[inline(never)]
pub fn read_mapped(
    image: &[u8],
    session: &[u8; SESSION],
    table: &[u8],
    width: usize,
    map: &[u8],
    out: &mut [u8],
) -> Answer {
    let count = by_session(image, session, |lent| {
        rows::read_mapped(lent, table, width, map, out)
    });
    expected(count.map(|count| count as u64))
}

#[inline(never)]
pub fn dominates(image: &[u8], first: &[u8; LABEL], second: &[u8; LABEL]) -> Answer {
    let labels = [first, second].map(Label::read);
    let policy = Policy::accepted(image);
    let verdict = policy.and_then(|policy| two_labels::dominates(&policy, labels));
    expected(verdict.map(u64::from))
}

#[inline(never)]
pub fn merge(
    first: &[u8; LABEL],
    second: &[u8; LABEL],
    letters: &[u8],
    label: &mut [u8; LABEL],
) -> Answer {
    match two_labels::merge(first, second, letters, label) {
        Ok(()) => Answer::Done(0),
        Err(refusal) => expected(Err(refusal)),
    }
}

#[inline(never)]
pub fn write(lent: &model::Lent, out: &mut [u8]) -> Answer {
    expected(write::write(lent, out).map(|length| length as u64))
}

#[inline(never)]
pub fn component_records(image: &[u8], out: &mut [u8]) -> Answer {
    records(image, Kind::Component, out)
}

#[inline(never)]
pub fn label_records(image: &[u8], out: &mut [u8]) -> Answer {
    records(image, Kind::Label, out)
}

#[inline(never)]
pub fn user_records(image: &[u8], out: &mut [u8]) -> Answer {
    records(image, Kind::User, out)
}

fn records(image: &[u8], kind: Kind, out: &mut [u8]) -> Answer {
    let policy = Policy::accepted(image);
    let length = policy.and_then(|policy| write::take_apart(&policy, kind, out));
    expected(length.map(|length| length as u64))
}

/// What a call gives by an accepted image and an accepted session.
fn by_session<Given>(
    image: &[u8],
    session: &[u8; SESSION],
    call: impl FnOnce(&Lent) -> Result<Given, Refusal>,
) -> Result<Given, Refusal> {
    let policy = Policy::accepted(image)?;
    let lent = Lent::accept(&policy, Session::read(session))?;
    call(&lent)
}

fn handed_out(result: Result<Session, Refusal>, session: &mut [u8; SESSION]) -> Answer {
    expected(result.map(|given| {
        *session = given.to_bytes();
        0
    }))
}
