//! The law between the writer and the check: for whole records of classes 1 to 3 with counts in their limits, the
//! writer refuses exactly if the image laid out from them is refused, with the same number at the same record, or for
//! 35 at the same group.

use super::Lists;
use crate::builder::layout::BLOCK;
use crate::builder::Profile;
use crate::ffi::Answer;
use crate::model::{write_faults, WriteFault};
use std::collections::BTreeMap;

/// How often the law was asked for each answer of the writer.
#[derive(Debug, Default)]
pub struct LawTally {
    answers: BTreeMap<u32, usize>,
    /// At a record past the first block of its kind.
    in_later_blocks: BTreeMap<u32, usize>,
    /// 34 by the rules of a user's groups, which come last.
    by_groups: usize,
}

/// Asks the law of a writer's answer, in a buffer that is long enough, and of the check of the image laid out. The
/// image is what the writer has written.
pub fn assert_law(
    image: &[u8],
    lists: &Lists,
    written: (Answer, &[u8]),
    checked: Answer,
    case: &str,
) {
    let (answer, bytes) = written;
    let as_told = match checked {
        Answer::Done(0) => {
            assert!(bytes.starts_with(image), "{case}: other bytes");
            Answer::Done(image.len() as u64)
        }
        Answer::Refused {
            number: number @ 32..=34,
            place,
        } => Answer::Refused {
            number,
            place: in_list(image, lists, number, place),
        },
        Answer::Refused {
            number: number @ 35,
            place,
        } => Answer::Refused { number, place },
        other => panic!("{case}: the check of what is laid out gives {other:?}"),
    };
    assert_eq!(answer, as_told, "{case}: checked {checked:?}");
}

/// The place in its list of a record that the check tells by block and record.
fn in_list(image: &[u8], lists: &Lists, number: u32, place: u32) -> u32 {
    let kind = [67, 76, 85][number as usize - 32];
    let in_block = match (number, lists.edition) {
        (32, _) => 12,
        (33, 1) => 21,
        (33, _) => 10,
        (_, 1) => 3,
        _ => 2,
    };
    let mut blocks = image.chunks(BLOCK);
    let first = blocks.position(|block| block[0] == kind);
    let first = first.expect("the kind has a block") as u32;
    let (block, record) = (place / 65_536, place % 65_536);
    (block - first) * in_block + record
}

impl LawTally {
    pub fn add(&mut self, lists: &Lists, answer: Answer, checked: Answer) {
        let (number, place) = match answer {
            Answer::Done(_) => (0, 0),
            Answer::Refused { number, place } => (number, place),
        };
        *self.answers.entry(number).or_default() += 1;
        let in_block = match checked {
            Answer::Refused { place, .. } => place % 65_536,
            Answer::Done(_) => 0,
        };
        if (32..=34).contains(&number) && place != in_block {
            *self.in_later_blocks.entry(number).or_default() += 1;
        }
        let faults = write_faults(&lists.lent()).into_iter();
        let first = faults.min_by_key(WriteFault::key);
        self.by_groups += usize::from(matches!(first, Some(WriteFault::Below { .. })));
    }

    /// Asks that so many images were accepted, and that each refusal of the profile came so often. 35, 34 by groups and
    /// those of later blocks may come more seldom.
    pub fn assert_varied(&self, profile: Profile, least: usize) {
        let times = |of: &BTreeMap<u32, usize>, number: u32| of.get(&number).copied().unwrap_or(0);
        for number in [0, 32, 33, 34] {
            let seen = times(&self.answers, number);
            assert!(seen >= least, "answer {number} came {seen} times");
        }
        let seldom = least / 8;
        for number in 32..=34 {
            let seen = times(&self.in_later_blocks, number);
            assert!(seen >= seldom, "{number} came {seen} times in later blocks");
        }
        let rings = times(&self.answers, 35);
        assert!(
            rings >= seldom || profile == Profile::Release,
            "35 came {rings} times"
        );
        assert!(
            self.by_groups >= seldom,
            "34 by groups came {} times",
            self.by_groups
        );
    }
}
