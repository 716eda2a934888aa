//! Dominance in the sample co-operative with refusals by hand.

use crate::builder::{sample, to_image, Edition};
use crate::calls::{Pair, PairCall};
use crate::ffi::{Answer, LABEL};
use crate::tables::by_hand::refused_images;

/// A program that is asked.
pub type Ask<'a> = &'a dyn Fn(&[u8], &PairCall, &Pair) -> Answer;

/// A byte of a label by which the label names what the sample lacks: it has levels 0 to 2, compartments
/// 0 and 1, and groups 0 to 3.
const LACKING: [(usize, u8); 12] = [
    (4, 3),
    (4, 255),
    (8, 1 << 2),
    (9, 1),
    (15, 1 << 7),
    (16, 1 << 4),
    (17, 1),
    (23, 1 << 7),
    (24, 1),
    (31, 1 << 7),
    (32, 1),
    (47, 1 << 7),
];

const NO_COMPONENT: Answer = Answer::Refused {
    number: 18,
    place: 0,
};

/// CREW:KILN:NORTH and CREW:KILN:DOCK.
const FINE: Pair = [label(1, 1, 1 << 1), label(1, 1, 1 << 2)];

const fn label(level: u8, compartments: u8, groups: u8) -> [u8; LABEL] {
    let mut bytes = [0; LABEL];
    bytes[4] = level;
    bytes[8] = compartments;
    bytes[16] = groups;
    bytes
}

/// Pairs of which the first, the second or both labels have something that the sample lacks.
fn lacking() -> Vec<Pair> {
    let mut pairs = Vec::new();
    for (at, byte) in LACKING {
        let [mut over, mut under] = FINE;
        over[at] |= byte;
        under[at] |= byte;
        pairs.extend([
            [over, FINE[1]],
            [FINE[0], under],
            [over, under],
            [over, over],
        ]);
    }
    pairs
}

/// An image's refusals come first, whatever the labels are; then 18, whichever label it is; then the
/// answer.
pub fn check(edition: Edition, ask: Ask) {
    let whole = to_image(&sample().in_edition(edition));
    for call in PairCall::QUESTIONS {
        for (image, refusal) in refused_images(edition) {
            assert_eq!(ask(&image, &call, &FINE), refusal, "{call:?}");
            for pair in lacking() {
                assert_eq!(ask(&image, &call, &pair), refusal, "{call:?} {pair:?}");
            }
        }
        for pair in lacking() {
            assert_eq!(ask(&whole, &call, &pair), NO_COMPONENT, "{call:?} {pair:?}");
        }
        let [over, under] = FINE;
        assert_eq!(ask(&whole, &call, &[over, under]), Answer::Done(1));
        assert_eq!(ask(&whole, &call, &[under, over]), Answer::Done(0));
        let to_itself = u64::from(call == PairCall::Dominates);
        assert_eq!(ask(&whole, &call, &[over, over]), Answer::Done(to_itself));
    }
}
