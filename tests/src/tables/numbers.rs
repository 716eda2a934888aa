//! The numbers that row calls are told: widths, places among rows, and lengths. Wrong ones are often
//! next to a right one, or a right one to a program that looks at fewer bits.

use crate::rng::Rng;

/// A width outside 5..512.
pub fn outside_width(width: usize, rng: &mut Rng) -> usize {
    match rng.index(6) {
        0 => rng.index(5),
        1 => *rng.pick(&[0, 1, 4, 513]),
        2 => width + (1 << rng.pick(&[9, 16, 32, 63])),
        3 => *rng.pick(&[usize::MAX, 1 << 63, 1 << 32, width.wrapping_neg()]),
        4 => rng.range(513, 2_000),
        _ => rng.range(513, usize::MAX - 1),
    }
}

/// A number below the count, or 0.
fn below(count: usize, rng: &mut Rng) -> usize {
    rng.place(0, count).unwrap_or(0)
}

/// A number that isn't below the count: the count itself, one near it, or a huge one.
fn past(count: usize, rng: &mut Rng) -> usize {
    match rng.index(4) {
        0 => count,
        1 => count + rng.index(10),
        2 => *rng.pick(&[usize::MAX, usize::MAX - 1, usize::MAX / 2, 1 << 63, 1 << 32]),
        _ => below(count, rng) + (1 << rng.pick(&[32, 48, 63])),
    }
}

/// Mostly a number below the count.
pub fn any_place(count: usize, rng: &mut Rng) -> usize {
    match rng.index(4) {
        0 => past(count, rng),
        _ => below(count, rng),
    }
}

/// A place past all rows whose offset, place times width, wraps to that of a row, if the width is
/// even; for an odd one it wraps into a row.
pub fn wrapping_place(rows: usize, width: usize, rng: &mut Rng) -> usize {
    let row = below(rows, rng);
    match width.trailing_zeros() {
        0 => usize::MAX / width + 1 + row,
        zeros => row + (rng.range(1, (1 << zeros) - 1) << (usize::BITS - zeros)),
    }
}

/// A length that isn't the right one, which is not 0.
fn wrong_length(right: usize, rng: &mut Rng) -> usize {
    *rng.pick(&[0, right - 1, right + 1, right + 4, right + 256, 2 * right])
}

/// Random bytes, mostly as many as the width asks for.
pub fn payload(width: usize, rng: &mut Rng) -> Vec<u8> {
    let right = match width {
        5..=512 => width - 4,
        _ => rng.range(1, 508),
    };
    let length = match rng.index(6) {
        0 => wrong_length(right, rng),
        _ => right,
    };
    bytes(length, rng)
}

/// The length of a buffer for so many bytes: too short in one of three ways, just enough, or longer.
pub fn room(needed: usize, rng: &mut Rng) -> usize {
    match rng.index(8) {
        0 => needed.saturating_sub(1),
        1 => 0,
        2 => rng.range(0, needed),
        3 | 4 => needed,
        5 => needed + 1,
        _ => needed + rng.range(1, 600),
    }
}

/// Random bytes.
pub fn bytes(length: usize, rng: &mut Rng) -> Vec<u8> {
    (0..length).map(|_| rng.byte()).collect()
}

#[cfg(test)]
mod tests {
    use super::*;

    #[test]
    fn wrong_numbers_are_wrong() {
        let mut rng = Rng::new(1);
        for _ in 0..20_000 {
            let width = rng.range(5, 512);
            let rows = rng.index(300);
            assert!(!(5..=512).contains(&outside_width(width, &mut rng)));
            assert!(past(rows, &mut rng) >= rows);
            assert_ne!(wrong_length(width - 4, &mut rng), width - 4);
            let place = wrapping_place(rows, width, &mut rng);
            assert!(place > 1 << 54);
            assert!(place.wrapping_mul(width) < rows.max(1) * width);
        }
    }
}
