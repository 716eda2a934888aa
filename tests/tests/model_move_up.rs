//! The model of the move up by itself, and what it is compared on.

use brawnesk_tests::builder::{to_image, Edition, Profile};
use brawnesk_tests::calls::Call;
use brawnesk_tests::compare::CallTally;
use brawnesk_tests::ffi::Answer;
use brawnesk_tests::in_each_profile;
use brawnesk_tests::model::{accepted, check, clear_compaccess, may_read, may_write};
use brawnesk_tests::model::{move_up, name, open, Image, Refusal, Session};
use brawnesk_tests::moving::{around_limits, by_hand, by_model, movable, Move, MoveTally};
use brawnesk_tests::rng::Rng;
use brawnesk_tests::walk::{each_call, Step};

in_each_profile! {
    moves_are_varied
    the_moved_image_is_the_builders
    limits
    verdicts_stay
    calls_stay
}

#[test]
fn answers_by_hand() {
    by_hand::check(&|image, buffer| {
        let (answer, after) = by_model(image, buffer);
        buffer.copy_from_slice(&after);
        answer
    });
}

/// The moves for comparing go everywhere.
fn moves_are_varied(profile: Profile) {
    let mut tally = MoveTally::default();
    for seed in 0..6_000 {
        tally.add(&Move::new(profile, seed));
    }
    println!("{tally:?}");
    tally.assert_varied(profile, 20);
}

/// The moved image is the one that the builder makes of the policy in edition 2, and of the same profile.
fn the_moved_image_is_the_builders(profile: Profile) {
    for seed in 0..1_000 {
        let policy = movable(profile, &mut Rng::new(seed));
        let moved = move_up(&to_image(&policy), usize::MAX);
        assert!(
            moved.as_ref().is_ok_and(|it| check(it) == Ok(())),
            "seed {seed}"
        );
        let wanted = to_image(&policy.in_edition(Edition::Two));
        assert!(moved == Ok(wanted), "seed {seed}");
    }
}

/// 800 labels and 32 users are moved if nobody holds COMPACCESS, and one more of either is not, whoever
/// holds it. In the release profile nobody does.
fn limits(profile: Profile) {
    let mut seen = [[0; 2]; 2];
    for seed in 0..400 {
        let policy = around_limits(profile, &mut Rng::new(seed));
        let fits = policy.labels.len() <= 800 && policy.users.len() <= 32;
        let holders = policy.holders().len();
        let moved = move_up(&to_image(&policy), usize::MAX);
        match (fits, holders) {
            (false, _) => assert_eq!(moved, Err(Refusal::Size)),
            (true, 0) => assert_eq!(check(&moved.expect("it fits")), Ok(())),
            (true, _) => assert_eq!(moved, Err(Refusal::Holders(holders))),
        }
        seen[usize::from(fits)][usize::from(holders > 0)] += 1;
    }
    println!("{seen:?}");
    let least = match profile {
        Profile::Tree => 30,
        Profile::Release => 0,
    };
    let is_right = |[nobody, some]: &[usize; 2]| *nobody >= 30 && *some >= least;
    assert!(seen.iter().all(is_right), "{seen:?}");
}

/// The names of some components.
fn names(image: &[u8]) -> Vec<Result<&[u8], Refusal>> {
    let asked = (1..=3).flat_map(|class| [0, 1, 5, 63].map(|place| (class, place)));
    let part = |(offset, length): (usize, usize)| &image[offset..offset + length];
    asked
        .map(|(class, place)| name(image, class, place).map(part))
        .collect()
}

/// The verdicts on a tag under a session that is accepted.
fn verdicts(image: &Image, session: &Session, tag: u32) -> [bool; 2] {
    [may_read, may_write].map(|ask| ask(image, session, tag).expect("an opened session"))
}

/// Components keep their places and names, users open the same sessions, and these have the same verdicts
/// on known tags.
fn verdicts_stay(profile: Profile) {
    let mut seen = CallTally::default();
    for seed in 0..300 {
        let policy = movable(profile, &mut Rng::new(seed));
        let image = to_image(&policy);
        let moved = move_up(&image, usize::MAX).expect("the policy is well-formed");
        assert_eq!(names(&image), names(&moved), "seed {seed}");
        let [before, after] = [&image, &moved].map(|it| accepted(it).expect("both are accepted"));
        for user in &policy.users {
            let opened = |image: &Image| open(image, user.name.as_bytes()).expect("a user");
            let session = opened(&before);
            assert_eq!(session, opened(&after), "seed {seed}: {}", user.name);
            for label in &policy.labels {
                let [one, two] = [&before, &after].map(|it| verdicts(it, &session, label.tag));
                assert_eq!(one, two, "seed {seed}: {} on {}", user.name, label.tag);
                seen.add("read", true, Answer::Done(one[0].into()));
                seen.add("write", true, Answer::Done(one[1].into()));
            }
        }
    }
    println!("{seen:?}");
    seen.assert_both("read");
    seen.assert_both("write");
}

/// Whether a call has the same answer after a move. Longer texts are read then, and unknown tags hidden.
fn stays(step: &Step) -> bool {
    match &step.call {
        Call::Open(_) => true,
        Call::SetLabel(text) | Call::SetRowLabel(text) => text.len() <= 4_096,
        Call::MayRead(_) | Call::MayWrite(_) => step.is_known,
    }
}

/// An image, and what it is when cleared of COMPACCESS, and when moved then; kept, since many calls are lent
/// the same one.
#[derive(Default)]
struct Kept {
    image: Vec<u8>,
    moved: Option<[Vec<u8>; 2]>,
}

impl Kept {
    fn moved(&mut self, image: &[u8]) -> Option<&[Vec<u8>; 2]> {
        if self.image != image {
            self.image = image.to_vec();
            let cleared = clear_compaccess(image, usize::MAX).ok();
            self.moved = cleared.and_then(|cleared| {
                let moved = move_up(&cleared, usize::MAX).ok()?;
                Some([cleared, moved])
            });
        }
        self.moved.as_ref()
    }
}

/// "A session (by places) is accepted for one image exactly if for the other, and then the verdicts are
/// equal": calls of walks, also with broken sessions.
fn calls_stay(profile: Profile) {
    let mut seen = CallTally::default();
    let mut kept = Kept::default();
    for seed in 0..200 {
        each_call(Edition::One.of(profile), seed, 60, |step| {
            let Some(images) = kept.moved(step.image).filter(|_| stays(step)) else {
                return;
            };
            let [before, after] = images.each_ref().map(|image| {
                let mut session = step.lent;
                let answer = step.call.by_model(&accepted(image), &mut session);
                (answer, session)
            });
            assert_eq!(before, after, "seed {seed}: {:?}", step.call);
            seen.add(step.call.name(), step.call.is_verdict(), before.0);
        });
    }
    println!("{seen:?}");
    seen.assert_least("set_label", &["done", "19", "8", "9", "10", "11"], 20);
    seen.assert_least("may_read", &["yes", "no", "19"], 100);
    seen.assert_least("may_write", &["yes", "no", "19"], 100);
}
