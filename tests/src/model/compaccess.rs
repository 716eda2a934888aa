//! Request R-12: the users of an image of edition 1 who hold COMPACCESS, and the image without it.

use super::layout::{Image, BLOCK};
use super::{fitting, of_edition_1, sums, Refusal};

/// The byte of a user's record that holds the privileges, and the bit of COMPACCESS there.
const PRIVILEGES: usize = 31;
const COMPACCESS: u8 = 4;

/// "The places of an edition 1 image's users who hold the bit, one byte each, in order", for a buffer of
/// `room` bytes.
pub fn compaccess_users(image: &[u8], room: usize) -> Result<Vec<u8>, Refusal> {
    let image = of_edition_1(image)?;
    let places = holders(&image).into_iter().map(|place| place as u8);
    fitting(places.collect(), room)
}

/// The image without the bit, for a buffer of `room` bytes: "clears the bit for exactly those users and
/// changes nothing else but their blocks' checks."
pub fn clear_compaccess(image: &[u8], room: usize) -> Result<Vec<u8>, Refusal> {
    let old = of_edition_1(image)?;
    let users = old.counts.users();
    let mut cleared = image.to_vec();
    for place in holders(&old) {
        cleared[users.offset(place) + PRIVILEGES] -= COMPACCESS;
        let (block, _) = users.at(place);
        let bytes = &mut cleared[block * BLOCK..][..BLOCK];
        let (a, b) = sums(bytes);
        bytes[510..].copy_from_slice(&[a, b]);
    }
    fitting(cleared, room)
}

/// The places of the users who hold the bit.
pub fn holders(image: &Image) -> Vec<usize> {
    let holds = |&place: &usize| image.user(place)[PRIVILEGES] & COMPACCESS != 0;
    (0..image.counts.users().count).filter(holds).collect()
}
