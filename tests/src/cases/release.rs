//! An image of the release profile whose bytes are written out from request R-10, in both editions, and bytes
//! by which it is refused or still accepted.

use super::by_hand::{at, refused, with, Ask, Byte};
use crate::builder::Edition;
use crate::ffi::Answer;

/// Where things stand in an edition.
#[derive(Clone, Copy)]
struct Of(Edition);

const ACCEPTED: Answer = Answer::Done(0);
const LAYOUT: Answer = refused(31, 0);
const LEVEL: Answer = at(32, 1, 0);
const GROUP_G: Answer = at(32, 1, 2);
const GROUP_H: Answer = at(32, 1, 3);
const SECOND: Answer = at(33, 2, 1);
const U: Answer = at(34, 3, 0);

/// The sets of a user's groups, in their order.
const READ: usize = 0;
const WRITE: usize = 1;
const DEFAULT: usize = 2;
const ROW: usize = 3;

impl Of {
    fn pick<T>(self, one: T, two: T) -> T {
        match self.0 {
            Edition::One => one,
            Edition::Two => two,
        }
    }

    /// Kind 80; the edition, one level, one compartment; one user, three labels; profile 1 in byte 12; two groups
    /// in byte 7 or in bytes 14..15.
    fn header(self) -> Vec<Byte> {
        let (edition, groups) = self.pick((1, 7), (2, 14));
        let counts = [(5, 1), (6, 1), (8, 1), (10, 3), (12, 1), (groups, 2)];
        [&[(0, 80), (4, edition)][..], &counts].concat()
    }

    /// Kind 67, four records of 40 bytes: level L 10, compartment C 1, groups G 1 and H 2. All hold 255 in byte
    /// 34, and in edition 2 in byte 35 too.
    fn components(self) -> Vec<Byte> {
        let mut bytes = vec![(0, 67), (1, 4)];
        let records = [(1, b'L', 10), (2, b'C', 1), (3, b'G', 1), (3, b'H', 2)];
        for (place, (class, name, number)) in records.into_iter().enumerate() {
            let at = 4 + place * 40;
            bytes.extend([(at, class), (at + 1, 1), (at + 2, name), (at + 32, number)]);
            bytes.extend(self.parent(place, 255));
        }
        bytes
    }

    /// The parent of a component: one byte, or two equal ones for none and with 0 for a group.
    fn parent(self, place: usize, parent: u8) -> Vec<Byte> {
        let at = 4 + place * 40;
        let high = if parent == 255 { 255 } else { 0 };
        self.pick(
            vec![(at + 34, parent)],
            vec![(at + 34, parent), (at + 35, high)],
        )
    }

    /// A byte of a label.
    fn label(self, place: usize, byte: usize, value: u8) -> Byte {
        (4 + place * self.pick(24, 48) + byte, value)
    }

    /// Kind 76, three records: tag 5 is L:C:G, tag 7 is L::G,H, and tag 9 is L::H.
    fn labels(self) -> Vec<Byte> {
        let mut bytes = vec![(0, 76), (1, 3), self.label(0, 8, 1)];
        for (place, (tag, groups)) in [(5, 1), (7, 3), (9, 2)].into_iter().enumerate() {
            bytes.extend([self.label(place, 0, tag), self.label(place, 16, groups)]);
        }
        bytes
    }

    /// The first byte of a set of the user's groups.
    fn groups(self, which: usize, value: u8) -> Byte {
        (4 + 72 + which * self.pick(8, 32), value)
    }

    /// Kind 85, one record: U without privileges. All levels are L and all compartments C. Read, write and default
    /// groups are G, row groups G and H.
    fn user(self) -> Vec<Byte> {
        let mut bytes = vec![(0, 85), (1, 1), (4, 1), (5, b'U')];
        bytes.extend([40, 48, 56, 64].map(|at| (4 + at, 1)));
        bytes.extend([READ, WRITE, DEFAULT].map(|which| self.groups(which, 1)));
        bytes.push(self.groups(ROW, 3));
        bytes
    }

    fn changed(self, place: usize, bytes: &[Byte]) -> Vec<u8> {
        let blocks = [self.header(), self.components(), self.labels(), self.user()];
        with(blocks.each_ref().map(|it| &it[..]), place, bytes)
    }

    /// Profiles that there are not; the other one, in which U's row group H would have to be below G; bytes that
    /// hold nothing; editions that there are not.
    fn in_header(self) -> Vec<(Vec<Byte>, Answer)> {
        let mut examples = vec![(vec![(12, 0)], U), (vec![(12, 1)], ACCEPTED)];
        let unused = self.pick([13, 14, 15, 16, 509], [7, 13, 16, 17, 509]);
        let single = [2, 3, 128, 254, 255].map(|it| (12, it)).into_iter();
        let single = single.chain(unused.map(|it| (it, 1)));
        let single = single.chain([(4, 0), (4, 3), (4, 255), (5, 0), (8, 2), (10, 4)]);
        examples.extend(single.map(|byte| (vec![byte], LAYOUT)));
        examples
    }

    /// Parents: of the level, of G and of H; also in a ring, and such that are no group.
    fn in_components(self) -> Vec<(Vec<Byte>, Answer)> {
        let ring = [self.parent(2, 1), self.parent(3, 0)].concat();
        vec![
            (self.parent(0, 0), LEVEL),
            (self.parent(1, 0), at(32, 1, 1)),
            (self.parent(2, 0), GROUP_G),
            (self.parent(2, 1), GROUP_G),
            (self.parent(2, 2), GROUP_G),
            (self.parent(2, 254), GROUP_G),
            (self.parent(3, 0), GROUP_H),
            (self.parent(3, 1), GROUP_H),
            (self.parent(3, 2), GROUP_H),
            (ring, GROUP_G),
            (vec![(4 + 160, 1)], LAYOUT),
        ]
    }

    fn in_labels(self) -> Vec<(Vec<Byte>, Answer)> {
        let accepted = [0, 1, 2, 3].map(|groups| (vec![self.label(1, 16, groups)], ACCEPTED));
        let lacking = [4, 128].map(|groups| (vec![self.label(1, 16, groups)], SECOND));
        accepted.into_iter().chain(lacking).collect()
    }

    /// COMPACCESS and bit 128, alone and with others; all that is held else.
    fn in_privileges(self) -> Vec<(Vec<Byte>, Answer)> {
        let bytes = (0..=255).map(|held| {
            let answer = match held & (4 + 128) {
                0 => ACCEPTED,
                _ => U,
            };
            (vec![(4 + 31, held)], answer)
        });
        bytes.collect()
    }

    /// Every choice of the four sets among G and H. Groups that there are not.
    fn in_groups(self) -> Vec<(Vec<Byte>, Answer)> {
        let mut examples = Vec::new();
        for bits in 0..=255_u8 {
            let [read, write, default, row] = [0, 2, 4, 6].map(|shift| bits >> shift & 3);
            let is_kept = write == read && read & !default == 0 && default & !row == 0;
            let sets = [read, write, default, row].into_iter().enumerate();
            let bytes = sets.map(|(which, set)| self.groups(which, set)).collect();
            examples.push((bytes, if is_kept { ACCEPTED } else { U }));
        }
        for lacking in [4, 128] {
            let all = [READ, WRITE, DEFAULT, ROW].map(|which| self.groups(which, lacking | 3));
            examples.push((all.to_vec(), U));
            examples.push((vec![self.groups(ROW, lacking | 3)], U));
        }
        examples
    }

    fn check(self, ask: Ask) {
        let examples = [
            (0, self.in_header()),
            (1, self.in_components()),
            (2, self.in_labels()),
            (3, self.in_privileges()),
            (3, self.in_groups()),
        ];
        for (block, examples) in examples {
            for (bytes, answer) in examples {
                let given = ask(&self.changed(block, &bytes));
                assert_eq!(given, answer, "{:?}, block {block}: {bytes:?}", self.0);
            }
        }
    }
}

/// The image as it is.
pub fn image(edition: Edition) -> Vec<u8> {
    Of(edition).changed(0, &[])
}

/// All cases.
pub fn check(ask: Ask) {
    for edition in Edition::ALL {
        assert_eq!(ask(&image(edition)), ACCEPTED);
        Of(edition).check(ask);
    }
}
