//! The rules of a policy image, of label text, of sessions, of verdicts, of tables, of two labels
//! and of the report, written from document 01 section by section, and from the requests of document
//! 02: R-1 for images written from records and taken apart, R-2 for what a faulty image is refused with, R-3 for
//! dominance, R-4 for maps, R-10 for the release profile, R-11 for edition 2 and the move up to it, R-12 for the
//! users who hold COMPACCESS. There is little thought for speed, and nothing here is shared with the library or
//! with the builder of images.

mod compaccess;
mod counts;
mod edition;
mod faults;
mod groups;
mod label;
mod lay_out;
mod layout;
mod map;
mod move_up;
mod places;
mod profile;
mod records;
mod refusal;
mod report;
mod session;
mod table;
mod text;
mod two_labels;
mod user;
mod verdict;
mod write;

pub use compaccess::{clear_compaccess, compaccess_users};
pub use counts::Kind;
pub use faults::{faults, first_fault, Fault, Key};
pub use label::Label;
pub use layout::Image;
pub use map::{judge_map, map, read_mapped};
pub use move_up::move_up;
pub use places::Places;
pub use refusal::Refusal;
pub use report::{lines_of, report};
pub use session::{open, set_label, set_row_label, Session};
pub use table::{masked, read, update, Masked};
pub use text::{parse, print, print_within};
pub use two_labels::{dominates, merge, strictly_dominates};
pub use verdict::{may_read, may_read_at_maximum, may_write};
pub use write::{laid_out, records_of, write, write_faults, Lent, WriteFault};

use layout::BLOCK;

/// Whether the image is accepted.
pub fn check(image: &[u8]) -> Result<(), Refusal> {
    sound(image)?;
    match first_fault(image) {
        Some(fault) => Err(fault.refusal()),
        None => Ok(()),
    }
}

/// Whether neither 1 nor 2 refuses the image.
fn sound(image: &[u8]) -> Result<(), Refusal> {
    if image.is_empty() || !image.len().is_multiple_of(BLOCK) || image.len() > 65_536 {
        return Err(Refusal::Length);
    }
    let unsound = |(place, block): (usize, &[u8])| !is_sound(block, place);
    match image.chunks(BLOCK).enumerate().position(unsound) {
        Some(block) => Err(Refusal::Block(block)),
        None => Ok(()),
    }
}

/// The image taken apart, if it is accepted. Calls on sessions are lent what this gives, so that
/// one check serves many calls.
pub fn accepted(image: &[u8]) -> Result<Image<'_>, Refusal> {
    check(image)?;
    Image::read(image).ok_or(Refusal::Layout)
}

/// The same of an image of edition 1. One of edition 2 is refused 31, "as for a header fault", so before
/// what else may be wrong with it.
fn of_edition_1(image: &[u8]) -> Result<Image<'_>, Refusal> {
    sound(image)?;
    if image[4] == edition::TWO.number {
        return Err(Refusal::Layout);
    }
    accepted(image)
}

/// What a call writes to a buffer of `room` bytes; 13 goes by the length of what would be written.
fn fitting(bytes: Vec<u8>, room: usize) -> Result<Vec<u8>, Refusal> {
    match bytes.len() > room {
        true => Err(Refusal::Room),
        false => Ok(bytes),
    }
}

/// Where the name of a component stands in the image: its offset and length.
pub fn name(image: &[u8], class: u8, place: u8) -> Result<(usize, usize), Refusal> {
    let accepted = accepted(image)?;
    let (first, count) = accepted.counts.class(class).ok_or(Refusal::Component)?;
    let place = usize::from(place);
    if place >= count {
        return Err(Refusal::Component);
    }
    let record = accepted.counts.components().offset(first + place);
    Ok((record + 2, usize::from(image[record + 1])))
}

/// The check of a block's bytes 0..509: two running sums, each mod 255.
pub fn sums(block: &[u8]) -> (u8, u8) {
    let (mut a, mut b) = (0, 0);
    for &byte in &block[..510] {
        a = (a + u32::from(byte)) % 255;
        b = (b + a) % 255;
    }
    (a as u8, b as u8)
}

fn is_sound(block: &[u8], place: usize) -> bool {
    sums(block) == (block[510], block[511]) && layout::u16_at(block, 2) == place
}

#[cfg(test)]
mod tests {
    use super::*;

    #[test]
    fn sums_of_the_documents_block() {
        let mut block = [0; 512];
        block[..2].copy_from_slice(&[1, 2]);
        assert_eq!(sums(&block), (3, 253));
    }

    #[test]
    fn lengths() {
        for length in [0, 1, 511, 513, 65_535, 65_537, 66_048] {
            assert_eq!(check(&vec![0; length]), Err(Refusal::Length));
        }
        // Zeros have sums 0, 0; the second block's place is wrong.
        assert_eq!(check(&[0; 512]), Err(Refusal::Layout));
        assert_eq!(check(&[0; 65_536]), Err(Refusal::Block(1)));
    }
}
