//! The compiled library, as its C functions give it.

mod answer;
mod raw;
mod writing;

pub use answer::Answer;
pub use writing::{records, write};

use raw::*;

/// The bytes of a label.
pub const LABEL: usize = 48;

/// The bytes of a session.
pub const SESSION: usize = 104;

/// False where the archive was absent when this package was built.
pub const LINKED: bool = cfg!(not(no_library));

// SAFETY, of every call below: a pointer and a length are those of a borrowed slice, and a label or a
// session is a borrowed array of all its bytes. What the call only reads is shared; what it writes is
// borrowed alone, and it writes inside it only. A slice's pointer is never null in Rust, not even an
// empty one's; the library asks for that.

/// `brawnesk_check`.
pub fn check(image: &[u8]) -> Answer {
    Answer::decode(unsafe { brawnesk_check(image.as_ptr(), image.len()) })
}

/// `brawnesk_name`: when done, the name's offset in the image + 65,536 * its length.
pub fn name(image: &[u8], class: u8, place: u8) -> Answer {
    let (image, length) = (image.as_ptr(), image.len());
    Answer::decode(unsafe { brawnesk_name(image, length, class, place) })
}

/// `brawnesk_parse`: when done, the label is written.
pub fn parse(image: &[u8], text: &[u8], label: &mut [u8; LABEL]) -> Answer {
    let (image, length) = (image.as_ptr(), image.len());
    let (text, text_length) = (text.as_ptr(), text.len());
    let label = label.as_mut_ptr();
    Answer::decode(unsafe { brawnesk_parse(image, length, text, text_length, label) })
}

/// `brawnesk_print`: when done, the length of the text at the front of `out`.
pub fn print(image: &[u8], label: &[u8; LABEL], out: &mut [u8]) -> Answer {
    let (image, length) = (image.as_ptr(), image.len());
    let (out, out_length) = (out.as_mut_ptr(), out.len());
    Answer::decode(unsafe { brawnesk_print(image, length, label.as_ptr(), out, out_length) })
}

/// `brawnesk_open`: when done, the session is written.
pub fn open(image: &[u8], name: &[u8], session: &mut [u8; SESSION]) -> Answer {
    let (image, length) = (image.as_ptr(), image.len());
    let (name, name_length) = (name.as_ptr(), name.len());
    let session = session.as_mut_ptr();
    Answer::decode(unsafe { brawnesk_open(image, length, name, name_length, session) })
}

/// `brawnesk_set_label`: when done, the session has the new label.
pub fn set_label(image: &[u8], session: &mut [u8; SESSION], text: &[u8]) -> Answer {
    let (image, length) = (image.as_ptr(), image.len());
    let (text, text_length) = (text.as_ptr(), text.len());
    let session = session.as_mut_ptr();
    Answer::decode(unsafe { brawnesk_set_label(image, length, session, text, text_length) })
}

/// `brawnesk_set_row_label`: when done, the session has the new row label.
pub fn set_row_label(image: &[u8], session: &mut [u8; SESSION], text: &[u8]) -> Answer {
    let (image, length) = (image.as_ptr(), image.len());
    let (text, text_length) = (text.as_ptr(), text.len());
    let session = session.as_mut_ptr();
    Answer::decode(unsafe { brawnesk_set_row_label(image, length, session, text, text_length) })
}

/// `brawnesk_may_read`: when done, 1 for yes and 0 for no.
pub fn may_read(image: &[u8], session: &[u8; SESSION], tag: u32) -> Answer {
    let (image, length) = (image.as_ptr(), image.len());
    Answer::decode(unsafe { brawnesk_may_read(image, length, session.as_ptr(), tag) })
}

/// `brawnesk_may_write`: when done, 1 for yes and 0 for no.
pub fn may_write(image: &[u8], session: &[u8; SESSION], tag: u32) -> Answer {
    let (image, length) = (image.as_ptr(), image.len());
    Answer::decode(unsafe { brawnesk_may_write(image, length, session.as_ptr(), tag) })
}

/// `brawnesk_read`: when done, the count of the rows at the front of `out`.
pub fn read(
    image: &[u8],
    session: &[u8; SESSION],
    table: &[u8],
    width: usize,
    out: &mut [u8],
) -> Answer {
    let (image, length) = (image.as_ptr(), image.len());
    let (table, rows) = (table.as_ptr(), table.len());
    let (out, room) = (out.as_mut_ptr(), out.len());
    let session = session.as_ptr();
    Answer::decode(unsafe { brawnesk_read(image, length, session, table, rows, width, out, room) })
}

/// `brawnesk_update`: when done, row n of the readable ones has the payload.
pub fn update(
    image: &[u8],
    session: &[u8; SESSION],
    table: &mut [u8],
    width: usize,
    n: usize,
    payload: &[u8],
) -> Answer {
    let (image, length) = (image.as_ptr(), image.len());
    let (table, rows) = (table.as_mut_ptr(), table.len());
    let (payload, size) = (payload.as_ptr(), payload.len());
    let session = session.as_ptr();
    Answer::decode(unsafe {
        brawnesk_update(image, length, session, table, rows, width, n, payload, size)
    })
}

/// `brawnesk_masked`: when done, 1 for the payload, which is at place * width + 4, and 0 for the mask.
pub fn masked(
    image: &[u8],
    session: &[u8; SESSION],
    table: &[u8],
    width: usize,
    place: usize,
    mask: &[u8],
) -> Answer {
    let (image, length) = (image.as_ptr(), image.len());
    let (table, rows) = (table.as_ptr(), table.len());
    let (mask, size) = (mask.as_ptr(), mask.len());
    let session = session.as_ptr();
    Answer::decode(unsafe {
        brawnesk_masked(
            image, length, session, table, rows, width, place, mask, size,
        )
    })
}

/// `brawnesk_map`: when done, the length of the map at the front of `out`.
pub fn map(image: &[u8], session: &[u8; SESSION], out: &mut [u8]) -> Answer {
    let (image, length) = (image.as_ptr(), image.len());
    let (out, room) = (out.as_mut_ptr(), out.len());
    Answer::decode(unsafe { brawnesk_map(image, length, session.as_ptr(), out, room) })
}

/// `brawnesk_judge_map`: when done, the map is the session's.
pub fn judge_map(image: &[u8], session: &[u8; SESSION], map: &[u8]) -> Answer {
    let (image, length) = (image.as_ptr(), image.len());
    let (map, size) = (map.as_ptr(), map.len());
    Answer::decode(unsafe { brawnesk_judge_map(image, length, session.as_ptr(), map, size) })
}

/// `brawnesk_read_mapped`: when done, the count of the rows at the front of `out`.
pub fn read_mapped(
    image: &[u8],
    session: &[u8; SESSION],
    table: &[u8],
    width: usize,
    map: &[u8],
    out: &mut [u8],
) -> Answer {
    let (image, length) = (image.as_ptr(), image.len());
    let (table, rows) = (table.as_ptr(), table.len());
    let (map, size) = (map.as_ptr(), map.len());
    let (out, room) = (out.as_mut_ptr(), out.len());
    let session = session.as_ptr();
    Answer::decode(unsafe {
        brawnesk_read_mapped(
            image, length, session, table, rows, width, map, size, out, room,
        )
    })
}

/// `brawnesk_dominates`: when done, 1 for yes and 0 for no.
pub fn dominates(image: &[u8], first: &[u8; LABEL], second: &[u8; LABEL]) -> Answer {
    let (image, length) = (image.as_ptr(), image.len());
    let (first, second) = (first.as_ptr(), second.as_ptr());
    Answer::decode(unsafe { brawnesk_dominates(image, length, first, second) })
}

/// `brawnesk_strictly_dominates`: when done, 1 for yes and 0 for no.
pub fn strictly_dominates(image: &[u8], first: &[u8; LABEL], second: &[u8; LABEL]) -> Answer {
    let (image, length) = (image.as_ptr(), image.len());
    let (first, second) = (first.as_ptr(), second.as_ptr());
    Answer::decode(unsafe { brawnesk_strictly_dominates(image, length, first, second) })
}

/// `brawnesk_merge`: when done, the label is written.
pub fn merge(
    first: &[u8; LABEL],
    second: &[u8; LABEL],
    letters: &[u8],
    label: &mut [u8; LABEL],
) -> Answer {
    let (first, second) = (first.as_ptr(), second.as_ptr());
    let (letters, length) = (letters.as_ptr(), letters.len());
    Answer::decode(unsafe { brawnesk_merge(first, second, letters, length, label.as_mut_ptr()) })
}
