//! Answers taken apart.

use crate::Refusal;

const REFUSED: u64 = 1 << 63;

/// An answer of a C function taken apart. Below 2^63 it is the value; from there on it is
/// 2^63 + number * 2^32 + place, and a number that this crate does not know is
/// [`Refusal::Unknown`].
///
/// ```
/// use brawnesk::{decode, Refusal};
///
/// assert_eq!(decode(7), Ok(7));
/// assert_eq!(decode((1 << 63) + (2 << 32) + 126), Err(Refusal::BlockCheck(126)));
/// assert_eq!(
///     decode((1 << 63) + (99 << 32) + 5),
///     Err(Refusal::Unknown { number: 99, place: 5 }),
/// );
/// ```
pub fn decode(answer: u64) -> Result<u64, Refusal> {
    if answer < REFUSED {
        return Ok(answer);
    }
    let number = (answer - REFUSED) >> 32;
    Err(Refusal::new(number as u32, answer as u32))
}
