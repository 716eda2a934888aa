//! The calls of request R-1: an image written from records, and taken apart.

use super::raw::brawnesk_write;
use super::raw::{brawnesk_component_records, brawnesk_label_records, brawnesk_user_records};
use super::Answer;
use crate::model::{Kind, Lent};

// SAFETY, of both calls below: each pointer and length are those of a borrowed slice. What is only read is shared,
// and the buffer is borrowed alone and written inside only.

/// `brawnesk_write`: when done, the length of the image at the front of `out`.
pub fn write(lent: &Lent, out: &mut [u8]) -> Answer {
    let [components, labels, users] = lent.lists;
    Answer::decode(unsafe {
        brawnesk_write(
            lent.edition,
            lent.profile,
            components.as_ptr(),
            components.len(),
            labels.as_ptr(),
            labels.len(),
            users.as_ptr(),
            users.len(),
            out.as_mut_ptr(),
            out.len(),
        )
    })
}

/// `brawnesk_component_records`, `brawnesk_label_records` or `brawnesk_user_records`: when done, the length of the
/// records at the front of `out`.
pub fn records(kind: Kind, image: &[u8], out: &mut [u8]) -> Answer {
    let (image, length) = (image.as_ptr(), image.len());
    let (out, room) = (out.as_mut_ptr(), out.len());
    Answer::decode(unsafe {
        match kind {
            Kind::Component => brawnesk_component_records(image, length, out, room),
            Kind::Label => brawnesk_label_records(image, length, out, room),
            Kind::User => brawnesk_user_records(image, length, out, room),
        }
    })
}
