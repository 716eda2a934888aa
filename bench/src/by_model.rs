//! The measured calls by the model of the tests, in the shape of the library's. It isn't measured: it
//! tells what is right where there is no plain version.

use brawnesk_tests::calls::{Call, PairCall};
use brawnesk_tests::compare::{expected, written};
use brawnesk_tests::ffi::{Answer, LABEL, SESSION};
use brawnesk_tests::maps::MapCall;
use brawnesk_tests::model::{self, accepted, Kind, Label, Refusal};
use brawnesk_tests::moving;
use brawnesk_tests::row_calls::{Lent, RowCall};

pub fn check(image: &[u8]) -> Answer {
    expected(model::check(image).map(|()| 0))
}

pub fn name(image: &[u8], class: u8, place: u8) -> Answer {
    let span = model::name(image, class, place);
    expected(span.map(|(offset, length)| (offset + 65_536 * length) as u64))
}

pub fn parse(image: &[u8], text: &[u8], label: &mut [u8; LABEL]) -> Answer {
    expected(model::parse(image, text).map(|read| {
        *label = read.to_bytes();
        0
    }))
}

pub fn print(image: &[u8], label: &[u8; LABEL], out: &mut [u8]) -> Answer {
    let text = model::print_within(image, &Label::read(label), out.len());
    expected(text.map(|text| {
        out[..text.len()].copy_from_slice(&text);
        text.len() as u64
    }))
}

pub fn open(image: &[u8], name: &[u8], session: &mut [u8; SESSION]) -> Answer {
    Call::Open(name.to_vec()).by_model(&accepted(image), session)
}

pub fn set_label(image: &[u8], session: &mut [u8; SESSION], text: &[u8]) -> Answer {
    Call::SetLabel(text.to_vec()).by_model(&accepted(image), session)
}

pub fn set_row_label(image: &[u8], session: &mut [u8; SESSION], text: &[u8]) -> Answer {
    Call::SetRowLabel(text.to_vec()).by_model(&accepted(image), session)
}

pub fn may_read(image: &[u8], session: &[u8; SESSION], tag: u32) -> Answer {
    Call::MayRead(tag).by_model(&accepted(image), &mut session.clone())
}

pub fn may_write(image: &[u8], session: &[u8; SESSION], tag: u32) -> Answer {
    Call::MayWrite(tag).by_model(&accepted(image), &mut session.clone())
}

pub fn dominates(image: &[u8], first: &[u8; LABEL], second: &[u8; LABEL]) -> Answer {
    let pair = [*first, *second];
    PairCall::Dominates.by_model(&accepted(image), &pair, &mut [0; LABEL])
}

pub fn merge(
    first: &[u8; LABEL],
    second: &[u8; LABEL],
    letters: &[u8],
    label: &mut [u8; LABEL],
) -> Answer {
    let no_image = accepted(&[]);
    PairCall::Merge(letters.to_vec()).by_model(&no_image, &[*first, *second], label)
}

pub fn read(
    image: &[u8],
    session: &[u8; SESSION],
    table: &[u8],
    width: usize,
    out: &mut [u8],
) -> Answer {
    let mut lent = lent(session, table, out);
    let answer = RowCall::Read { width }.by_model(&accepted(image), &mut lent);
    out.copy_from_slice(&lent.buffer);
    answer
}

pub fn update(
    image: &[u8],
    session: &[u8; SESSION],
    table: &mut [u8],
    width: usize,
    n: usize,
    payload: &[u8],
) -> Answer {
    let mut lent = lent(session, table, &[]);
    let payload = payload.to_vec();
    let call = RowCall::Update { width, n, payload };
    let answer = call.by_model(&accepted(image), &mut lent);
    table.copy_from_slice(&lent.table);
    answer
}

pub fn masked(
    image: &[u8],
    session: &[u8; SESSION],
    table: &[u8],
    width: usize,
    place: usize,
    mask: &[u8],
) -> Answer {
    let mut lent = lent(session, table, &[]);
    let mask = mask.to_vec();
    let call = RowCall::Masked { width, place, mask };
    call.by_model(&accepted(image), &mut lent)
}

pub fn read_mapped(
    image: &[u8],
    session: &[u8; SESSION],
    table: &[u8],
    width: usize,
    map: &[u8],
    out: &mut [u8],
) -> Answer {
    let mut lent = lent(session, table, out);
    let map = map.to_vec();
    let call = RowCall::ReadMapped { width, map };
    let answer = call.by_model(&accepted(image), &mut lent);
    out.copy_from_slice(&lent.buffer);
    answer
}

pub fn map(image: &[u8], session: &[u8; SESSION], out: &mut [u8]) -> Answer {
    let mut lent = lent(session, &[], out);
    let answer = MapCall::Make.by_model(&accepted(image), &mut lent);
    out.copy_from_slice(&lent.buffer);
    answer
}

pub fn judge_map(image: &[u8], session: &[u8; SESSION], map: &[u8]) -> Answer {
    let mut lent = lent(session, &[], &[]);
    MapCall::Judge(map.to_vec()).by_model(&accepted(image), &mut lent)
}

fn lent(session: &[u8; SESSION], table: &[u8], buffer: &[u8]) -> Lent {
    Lent {
        session: *session,
        table: table.to_vec(),
        buffer: buffer.to_vec(),
    }
}

pub fn move_up(image: &[u8], out: &mut [u8]) -> Answer {
    let (answer, after) = moving::by_model(image, out);
    out.copy_from_slice(&after);
    answer
}

pub fn write(lent: &model::Lent, out: &mut [u8]) -> Answer {
    to_front(model::write(lent, out.len()), out)
}

pub fn records(kind: Kind, image: &[u8], out: &mut [u8]) -> Answer {
    to_front(model::records_of(image, kind, out.len()), out)
}

fn to_front(result: Result<Vec<u8>, Refusal>, out: &mut [u8]) -> Answer {
    let (answer, after) = written(result, out);
    out.copy_from_slice(&after);
    answer
}
