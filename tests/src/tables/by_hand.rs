//! Row calls on the sample co-operative with answers by hand.

use crate::builder::layout::{seal, BLOCK};
use crate::builder::{sample, to_image, Edition};
use crate::ffi::{Answer, SESSION};
use crate::maps::every_wrong;
use crate::row_calls::{Lent, RowCall};

/// A program that is asked.
pub type Ask<'a> = &'a dyn Fn(&[u8], &RowCall, &mut Lent) -> Answer;

const WIDTH: usize = 7;

/// By the report's example MARA reads and writes 10, reads 30, and neither reads nor writes 20. The
/// other tags are unknown.
const ROWS: [(u32, &[u8; 3]); 6] = [
    (20, b"aaa"),
    (10, b"bbb"),
    (0, b"ccc"),
    (30, b"ddd"),
    (10, b"eee"),
    (100_000_010, b"fff"),
];

/// The places of all rows, and of those whose tags are known.
const ALL: &[usize] = &[0, 1, 2, 3, 4, 5];
const KNOWN: &[usize] = &[0, 1, 3, 4];

/// The places of the rows that MARA's labels let her read and write.
const READ_BY_LABELS: &[usize] = &[1, 3, 4];
const WRITTEN_BY_LABELS: &[usize] = &[1, 4];

/// MARA in an edition with some privileges: row n of those that she reads is at place `readable[n]`. In her map
/// 10, 20 and 30 have the bits 1, 2 and 4.
struct Hand<'a> {
    image: Vec<u8>,
    readable: &'static [usize],
    writable: &'static [usize],
    map: u8,
    ask: Ask<'a>,
}

/// All cases.
pub fn check(edition: Edition, ask: Ask) {
    let seen = match edition {
        Edition::One => ALL,
        Edition::Two => KNOWN,
    };
    let [none, read, full] = [0, 1, 2];
    for (privileges, readable, writable, map) in [
        (none, READ_BY_LABELS, WRITTEN_BY_LABELS, 1 + 4),
        (read, seen, WRITTEN_BY_LABELS, 1 + 2 + 4),
        (full, seen, seen, 1 + 2 + 4),
        (read | full, seen, seen, 1 + 2 + 4),
    ] {
        let mut policy = sample().in_edition(edition);
        policy.users[0].privileges = privileges;
        let hand = Hand {
            image: to_image(&policy),
            readable,
            writable,
            map,
            ask,
        };
        let map = vec![map];
        hand.reading(&RowCall::Read { width: WIDTH });
        hand.reading(&RowCall::ReadMapped { width: WIDTH, map });
        hand.wrong_maps();
        hand.updating();
        hand.masked_reading();
        hand.wrong_numbers();
    }
    broken_sessions(edition, ask);
}

fn row(place: usize) -> Vec<u8> {
    let (tag, payload) = ROWS[place];
    [&tag.to_le_bytes()[..], payload].concat()
}

/// MARA at CREW:KILN,GLAZE:NORTH with row label CREW:KILN:DOCK, as she opens.
fn mara() -> [u8; SESSION] {
    let mut session = [0; SESSION];
    for (at, byte) in [(12, 1), (16, 3), (24, 2), (60, 1), (64, 1), (72, 4)] {
        session[at] = byte;
    }
    session
}

/// MARA's session, all rows, and a buffer of so many bytes.
pub fn lent(room: usize) -> Lent {
    Lent {
        session: mara(),
        table: ALL.iter().flat_map(|&place| row(place)).collect(),
        buffer: vec![0xa5; room],
    }
}

fn refused(number: u32, place: u32) -> Answer {
    Answer::Refused { number, place }
}

impl Hand<'_> {
    /// Asks that the answer is given and that the lent bytes are then as told.
    fn expect(&self, call: &RowCall, lent: &Lent, answer: Answer, after: &Lent) {
        let mut given = lent.clone();
        let case = format!("{call:?}, rows {:?}", self.readable);
        assert_eq!((self.ask)(&self.image, call, &mut given), answer, "{case}");
        assert_eq!(given.difference(after), None, "{case}");
    }

    /// Seven bytes are needed for each readable row. Later bytes stay.
    fn reading(&self, call: &RowCall) {
        let rows: Vec<u8> = self.readable.iter().flat_map(|&it| row(it)).collect();
        for room in 0..=60 {
            let lent = lent(room);
            let mut after = lent.clone();
            let mut answer = refused(13, 0);
            if room >= rows.len() {
                after.buffer[..rows.len()].copy_from_slice(&rows);
                answer = Answer::Done(self.readable.len() as u64);
            }
            self.expect(call, &lent, answer, &after);
        }
    }

    /// Each wrong map is refused before a buffer that is too short, also where there are no rows.
    fn wrong_maps(&self) {
        for map in every_wrong(&[self.map]) {
            let call = RowCall::ReadMapped { width: WIDTH, map };
            for room in [0, 60] {
                let mut lent = lent(room);
                self.expect(&call, &lent, refused(20, 0), &lent);
                lent.table.clear();
                self.expect(&call, &lent, refused(20, 0), &lent);
            }
        }
    }

    fn updating(&self) {
        for n in (0..8).chain([1 << 32, usize::MAX]) {
            let call = RowCall::Update {
                width: WIDTH,
                n,
                payload: b"new".to_vec(),
            };
            let lent = lent(0);
            let mut after = lent.clone();
            let answer = match self.readable.get(n) {
                None => refused(14, 0),
                Some(place) if !self.writable.contains(place) => refused(15, 0),
                Some(place) => {
                    let at = place * WIDTH + 4;
                    after.table[at..at + 3].copy_from_slice(b"new");
                    Answer::Done(0)
                }
            };
            self.expect(&call, &lent, answer, &after);
        }
    }

    fn masked_reading(&self) {
        for place in (0..8).chain([(1 << 32) + 1, usize::MAX]) {
            let answer = match place {
                0..6 => Answer::Done(u64::from(self.readable.contains(&place))),
                _ => refused(14, 0),
            };
            for mask in [&b""[..], b"-", b"hidden"] {
                let mask = mask.to_vec();
                let call = RowCall::Masked {
                    width: WIDTH,
                    place,
                    mask,
                };
                self.expect(&call, &lent(0), answer, &lent(0));
            }
        }
    }

    /// At first all but the session is wrong; then the width is right.
    fn wrong_numbers(&self) {
        for width in [0, 4, 5, 8, 42 * 13, usize::MAX] {
            for call in calls(width) {
                self.expect(&call, &lent(0), refused(12, 0), &lent(0));
            }
        }
        let numbers = [13, 16, 14, 20];
        for (call, number) in calls(WIDTH).iter().zip(numbers) {
            self.expect(call, &lent(0), refused(number, 0), &lent(0));
        }
    }
}

/// The sample's image with another byte in a block, and the block's check mended.
fn changed(edition: Edition, block: usize, at: usize, byte: u8) -> Vec<u8> {
    let mut image = to_image(&sample().in_edition(edition));
    image[block * BLOCK + at] = byte;
    seal(&mut image, block);
    image
}

/// Images of the sample that are refused, each with its refusal. Block 1 holds the components, block 2
/// the labels and block 3 the user.
pub fn refused_images(edition: Edition) -> Vec<(Vec<u8>, Answer)> {
    let whole = to_image(&sample().in_edition(edition));
    let changed = |block, at, byte| changed(edition, block, at, byte);
    let (second_label, write_groups) = match edition {
        Edition::One => (4 + 24, 80),
        Edition::Two => (4 + 48, 104),
    };
    let mut unsound = whole.clone();
    unsound[600] ^= 1;
    // Bit 128, or COMPACCESS, which edition 2 has not.
    let privilege = match edition {
        Edition::One => 128,
        Edition::Two => 4,
    };
    vec![
        (whole[..511].to_vec(), refused(1, 0)),
        (unsound, refused(2, 1)),
        (whole[..1_024].to_vec(), refused(31, 0)),
        (changed(0, 4, 3), refused(31, 0)),
        (changed(2, 509, 1), refused(31, 0)),
        (changed(1, 4 + 8 * 40 + 35, 1), refused(32, 65_536 + 8)),
        (changed(2, second_label + 4, 3), refused(33, 2 * 65_536 + 1)),
        (changed(3, 4 + 31, privilege), refused(34, 3 * 65_536)),
        // The third group is its own parent.
        (changed(1, 4 + 7 * 40 + 34, 2), refused(35, 2)),
        // MARA's write group is SOUTH, which isn't below NORTH.
        (changed(3, 4 + write_groups, 8), refused(34, 3 * 65_536)),
    ]
}

/// The refusals that every call gives to a broken session, whatever else is wrong.
fn broken_sessions(edition: Edition, ask: Ask) {
    let mut images = refused_images(edition);
    images.push((to_image(&sample().in_edition(edition)), refused(19, 0)));
    let mut broken = lent(0);
    broken.session[12] = 0;
    for (image, answer) in images {
        for call in calls(5) {
            let mut given = broken.clone();
            assert_eq!(ask(&image, &call, &mut given), answer, "{call:?}");
            assert_eq!(given.difference(&broken), None, "{call:?}");
        }
    }
}

/// Each call with all wrong that can be: no buffer, a payload of another length, no such row, an empty map.
fn calls(width: usize) -> [RowCall; 4] {
    [
        RowCall::Read { width },
        RowCall::Update {
            width,
            n: 9,
            payload: vec![1; 4],
        },
        RowCall::Masked {
            width,
            place: 9,
            mask: vec![2; 4],
        },
        RowCall::ReadMapped {
            width,
            map: Vec::new(),
        },
    ]
}
