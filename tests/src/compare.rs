//! What two programs are compared by: an image for both, the model's result as an answer, the seeds,
//! and how often each answer came.

use crate::builder::Profile;
use crate::ffi::Answer;
use crate::model::{accepted, Image, Refusal};
use std::collections::BTreeMap;
use std::ops::Range;

/// The one seed that is asked for by `BRAWNESK_SEED`.
pub fn one_seed() -> Option<u64> {
    let seed = std::env::var("BRAWNESK_SEED").ok()?;
    Some(seed.parse().expect("a seed is a number"))
}

/// All seeds, or the one that is asked for.
pub fn seeds(all: Range<u64>) -> Range<u64> {
    one_seed().map_or(all, |seed| seed..seed + 1)
}

/// The answer that the library has to give where the model gives a result.
pub fn expected(result: Result<u64, Refusal>) -> Answer {
    match result {
        Ok(value) => Answer::Done(value),
        Err(refusal) => Answer::Refused {
            number: refusal.number(),
            place: refusal.place() as u32,
        },
    }
}

/// The same of a call that writes to the front of a buffer and tells how many bytes; and the buffer after
/// it: later bytes stay, and all of them on a refusal.
pub fn written(result: Result<Vec<u8>, Refusal>, buffer: &[u8]) -> (Answer, Vec<u8>) {
    let mut after = buffer.to_vec();
    let answer = expected(result.map(|bytes| {
        after[..bytes.len()].copy_from_slice(&bytes);
        bytes.len() as u64
    }));
    (answer, after)
}

/// An image, and what the model's check gives for it: one check serves many calls.
pub struct Checked<'a> {
    pub image: &'a [u8],
    pub by_model: Result<Image<'a>, Refusal>,
}

impl Checked<'_> {
    pub fn new(image: &[u8]) -> Checked<'_> {
        Checked {
            image,
            by_model: accepted(image),
        }
    }
}

/// How often each answer came: 0 for done, else the refusal's number.
#[derive(Debug, Default)]
pub struct Tally(BTreeMap<u32, usize>);

impl Tally {
    pub fn add(&mut self, answer: Answer) {
        let number = match answer {
            Answer::Done(_) => 0,
            Answer::Refused { number, .. } => number,
        };
        *self.0.entry(number).or_default() += 1;
    }

    /// Asks that answers came at least so often.
    pub fn assert_least(&self, least: &[(u32, usize)]) {
        for &(number, least) in least {
            let times = self.0.get(&number).copied().unwrap_or(0);
            assert!(times >= least, "answer {number} came {times} times");
        }
    }
}

/// The refusals of an image, which every call gives that is lent one. The last is none of the release profile.
const OF_IMAGES: [&str; 7] = ["1", "2", "31", "32", "33", "34", "35"];

/// The refusals of images of a profile.
pub fn of_images(profile: Profile) -> &'static [&'static str] {
    match profile {
        Profile::Tree => &OF_IMAGES,
        Profile::Release => &OF_IMAGES[..6],
    }
}

/// How often each answer came to each call: "done", or "yes" and "no", or the refusal's number.
#[derive(Debug, Default)]
pub struct CallTally(BTreeMap<(&'static str, String), usize>);

impl CallTally {
    pub fn add(&mut self, call: &'static str, is_verdict: bool, answer: Answer) {
        let outcome = match answer {
            Answer::Refused { number, .. } => number.to_string(),
            Answer::Done(_) if !is_verdict => "done".to_string(),
            Answer::Done(0) => "no".to_string(),
            Answer::Done(_) => "yes".to_string(),
        };
        self.count(call, outcome);
    }

    /// Counts an outcome by its own name.
    pub fn count(&mut self, call: &'static str, outcome: impl Into<String>) {
        *self.0.entry((call, outcome.into())).or_default() += 1;
    }

    pub fn times(&self, call: &'static str, outcome: &str) -> usize {
        let key = (call, outcome.to_string());
        self.0.get(&key).copied().unwrap_or(0)
    }

    /// Asks that each of the outcomes came at least so often to the call.
    pub fn assert_least(&self, call: &'static str, outcomes: &[&str], least: usize) {
        for outcome in outcomes {
            let times = self.times(call, outcome);
            assert!(times >= least, "{call}: {outcome} came {times} times");
        }
    }

    /// Asks that a call gave the refusals of images of a profile at least so often, and no others of images.
    pub fn assert_of_images(&self, profile: Profile, call: &'static str, least: usize) {
        let refusals = of_images(profile);
        self.assert_least(call, refusals, least);
        for never in OF_IMAGES.iter().filter(|it| !refusals.contains(it)) {
            assert_eq!(self.times(call, never), 0, "{call}: {never}");
        }
    }

    /// Asks that yes and no are each at least 15 % of a verdict's answers that are not refused.
    pub fn assert_both(&self, call: &'static str) {
        let [yes, no] = ["yes", "no"].map(|outcome| self.times(call, outcome));
        let least = (yes + no) * 15 / 100;
        assert!(yes.min(no) >= least, "{call}: {yes} yes, {no} no");
    }
}
