//! An image of edition 2 whose bytes are written out from request R-11, and bytes by which it is refused,
//! also from request R-12.

use crate::builder::layout::BLOCK;
use crate::ffi::Answer;

/// A program's check.
pub type Ask<'a> = &'a dyn Fn(&[u8]) -> Answer;

/// A byte for a block: its place there, and its value.
pub type Byte = (usize, u8);

/// A block with its place and its check: two sums mod 255 over the bytes before it.
fn block(place: u8, bytes: &[Byte]) -> Vec<u8> {
    let mut block = vec![0; BLOCK];
    block[2] = place;
    for &(at, value) in bytes {
        block[at] = value;
    }
    let (mut a, mut b) = (0, 0);
    for &byte in &block[..510] {
        a = (a + u32::from(byte)) % 255;
        b = (b + a) % 255;
    }
    block[510] = a as u8;
    block[511] = b as u8;
    block
}

/// Kind 80; edition 2, one level, one compartment; one user, two labels; two groups in bytes 14..15.
const HEADER: [Byte; 7] = [(0, 80), (4, 2), (5, 1), (6, 1), (8, 1), (10, 2), (14, 2)];

/// Kind 67, four records of 40 bytes: level L 10, compartment C 1, group G 1, and group H 2 under G. The
/// others hold 65,535 in bytes 34..35.
const COMPONENTS: [Byte; 24] = [
    (0, 67),
    (1, 4),
    (4, 1),
    (5, 1),
    (6, b'L'),
    (4 + 32, 10),
    (4 + 34, 255),
    (4 + 35, 255),
    (44, 2),
    (45, 1),
    (46, b'C'),
    (44 + 32, 1),
    (44 + 34, 255),
    (44 + 35, 255),
    (84, 3),
    (85, 1),
    (86, b'G'),
    (84 + 32, 1),
    (84 + 34, 255),
    (84 + 35, 255),
    (124, 3),
    (125, 1),
    (126, b'H'),
    (124 + 32, 2),
];

/// Kind 76, two records of 48 bytes: tag 5 is L:C:H, with groups from byte 16 on, and tag 7 is L.
const LABELS: [Byte; 6] = [(0, 76), (1, 2), (4, 5), (4 + 8, 1), (4 + 16, 2), (52, 7)];

/// Kind 85, one record of 200 bytes: U without privileges. All levels are L; compartment sets in
/// 40..71 hold C; of the group sets read (72..103) and default (136..167) hold G, and write (104..135) and
/// row (168..199) hold H.
const USER: [Byte; 12] = [
    (0, 85),
    (1, 1),
    (4, 1),
    (5, b'U'),
    (4 + 40, 1),
    (4 + 48, 1),
    (4 + 56, 1),
    (4 + 64, 1),
    (4 + 72, 1),
    (4 + 104, 2),
    (4 + 136, 1),
    (4 + 168, 2),
];

/// An image of four blocks with other bytes in one of them.
pub fn with(blocks: [&[Byte]; 4], place: usize, bytes: &[Byte]) -> Vec<u8> {
    let changed = blocks.iter().enumerate().map(|(at, own)| {
        let added: &[Byte] = if at == place { bytes } else { &[] };
        block(at as u8, &[own, added].concat())
    });
    changed.collect::<Vec<_>>().concat()
}

/// The image with other bytes in one of its blocks.
fn changed(place: usize, bytes: &[Byte]) -> Vec<u8> {
    with([&HEADER, &COMPONENTS, &LABELS, &USER], place, bytes)
}

/// As it is.
pub fn image() -> Vec<u8> {
    changed(0, &[])
}

pub const fn refused(number: u32, place: u32) -> Answer {
    Answer::Refused { number, place }
}

/// A refusal by 32, 33 or 34, with block and record.
pub const fn at(number: u32, block: u32, record: u32) -> Answer {
    refused(number, block * 65_536 + record)
}

/// Bytes for a block, and what the image is then refused with.
type Example<'a> = (&'a [Byte], Answer);

const LAYOUT: Answer = refused(31, 0);
const LEVEL: Answer = at(32, 1, 0);
const GROUP_G: Answer = at(32, 1, 2);
const GROUP_H: Answer = at(32, 1, 3);
const FIRST: Answer = at(33, 2, 0);
const SECOND: Answer = at(33, 2, 1);
const U: Answer = at(34, 3, 0);

/// Unknown editions; edition 1, where bytes 14..15 are unused; unknown profiles, and the release profile, which
/// has no parents; byte 7 and all else that holds nothing; counts over their limits, which are 256 groups, 32
/// users and 800 labels; counts that need other blocks; counts that need other records.
const IN_HEADER: [Example; 28] = [
    (&[(4, 0)], LAYOUT),
    (&[(4, 1)], LAYOUT),
    (&[(4, 3)], LAYOUT),
    (&[(4, 255)], LAYOUT),
    // This is a right header of edition 1, but the first level's byte 35 isn't zero.
    (&[(4, 1), (7, 2), (14, 0)], LEVEL),
    (&[(7, 1)], LAYOUT),
    (&[(7, 2)], LAYOUT),
    (&[(7, 2), (14, 0)], LAYOUT),
    (&[(12, 2)], LAYOUT),
    (&[(12, 255)], LAYOUT),
    (&[(12, 1)], GROUP_H),
    (&[(13, 1)], LAYOUT),
    (&[(16, 1)], LAYOUT),
    (&[(17, 255)], LAYOUT),
    (&[(509, 1)], LAYOUT),
    (&[(15, 1)], LAYOUT),
    (&[(14, 1), (15, 1)], LAYOUT),
    (&[(14, 0), (15, 255)], LAYOUT),
    (&[(8, 33)], LAYOUT),
    (&[(9, 1)], LAYOUT),
    (&[(10, 33), (11, 3)], LAYOUT),
    (&[(14, 12)], LAYOUT),
    (&[(10, 12)], LAYOUT),
    (&[(8, 3)], LAYOUT),
    (&[(14, 1)], LAYOUT),
    (&[(14, 3)], LAYOUT),
    (&[(5, 0)], LAYOUT),
    (&[(0, 67)], LAYOUT),
];

/// Parents are two bytes. L begins at byte 4, C at 44, G at 84 and H at 124.
const IN_COMPONENTS: [Example; 20] = [
    (&[(4 + 34, 0)], LEVEL),
    (&[(4 + 35, 0)], LEVEL),
    (&[(4 + 34, 0), (4 + 35, 0)], LEVEL),
    (&[(4 + 36, 1)], LEVEL),
    (&[(4 + 39, 1)], LEVEL),
    (&[(44 + 35, 0)], at(32, 1, 1)),
    (&[(84 + 35, 0)], GROUP_G),
    (&[(84 + 34, 254)], GROUP_G),
    (&[(84 + 34, 0)], GROUP_G),
    (&[(84 + 34, 2), (84 + 35, 0)], GROUP_G),
    (&[(84 + 34, 0), (84 + 35, 1)], GROUP_G),
    (&[(124 + 35, 1)], GROUP_H),
    (&[(124 + 34, 2)], GROUP_H),
    (&[(124 + 34, 64)], GROUP_H),
    (&[(124 + 36, 1)], GROUP_H),
    (&[(84 + 34, 0), (84 + 35, 0)], refused(35, 0)),
    (&[(84 + 34, 1), (84 + 35, 0)], refused(35, 0)),
    (&[(124 + 34, 1)], refused(35, 1)),
    (&[(4 + 480, 1)], LAYOUT),
    // Without a parent H isn't below G, and U may not write it.
    (&[(124 + 34, 255), (124 + 35, 255)], U),
];

/// Sets of 256 places, of which the policy has two; the ends of records and of the block.
const IN_LABELS: [Example; 12] = [
    (&[(4 + 5, 1)], FIRST),
    (&[(4 + 7, 1)], FIRST),
    (&[(4 + 8, 2)], FIRST),
    (&[(4 + 16, 4)], FIRST),
    (&[(4 + 23, 128)], FIRST),
    (&[(4 + 24, 1)], FIRST),
    (&[(4 + 47, 128)], FIRST),
    (&[(52 + 47, 128)], SECOND),
    (&[(52, 5)], SECOND),
    (&[(100, 1)], LAYOUT),
    (&[(4 + 480, 1)], LAYOUT),
    (&[(1, 3)], LAYOUT),
];

/// COMPACCESS and bit 128, alone and with others; the same of four group sets; the last three break rules by
/// below, since H doesn't reach G.
const IN_USER: [Example; 24] = [
    (&[(4 + 31, 4)], U),
    (&[(4 + 31, 7)], U),
    (&[(4 + 31, 127)], U),
    (&[(4 + 31, 132)], U),
    (&[(4 + 31, 128)], U),
    (&[(4 + 36, 1)], U),
    (&[(4 + 39, 1)], U),
    (&[(4 + 40, 3)], U),
    (&[(4 + 72, 4)], U),
    (&[(4 + 80, 1)], U),
    (&[(4 + 103, 128)], U),
    (&[(4 + 111, 1)], U),
    (&[(4 + 135, 128)], U),
    (&[(4 + 136, 4)], U),
    (&[(4 + 167, 128)], U),
    (&[(4 + 168, 4)], U),
    (&[(4 + 199, 128)], U),
    (&[(204, 1)], LAYOUT),
    (&[(404, 1)], LAYOUT),
    (&[(509, 1)], LAYOUT),
    (&[(1, 2)], LAYOUT),
    (&[(4 + 72, 2)], U),
    (&[(4 + 168, 1)], U),
    (&[(4 + 136, 0)], U),
];

/// All cases.
pub fn check(ask: Ask) {
    assert_eq!(ask(&image()), Answer::Done(0));
    // All privileges but COMPACCESS.
    let privileged = changed(3, &[(4 + 31, 1 + 2 + 8 + 16 + 32 + 64)]);
    assert_eq!(ask(&privileged), Answer::Done(0));
    let examples: [&[Example]; 4] = [&IN_HEADER, &IN_COMPONENTS, &IN_LABELS, &IN_USER];
    for (block, examples) in examples.into_iter().enumerate() {
        for (bytes, refusal) in examples {
            let answer = ask(&changed(block, bytes));
            assert_eq!(answer, *refusal, "block {block}: {bytes:?}");
        }
    }
}
