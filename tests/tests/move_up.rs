//! The compiled `brawnesk_move_up` against the model, and the calls on the images before and after it.
//!
//! A wrong answer names its seed; `BRAWNESK_SEED=<seed> cargo test --release` compares that seed alone.

#[path = "move_up/raw.rs"]
mod raw;

use brawnesk_tests::builder::{partners, random, random_with, sample, to_image};
use brawnesk_tests::builder::{Edition, Profile, Sizes, Tree, Variant};
use brawnesk_tests::calls::Call;
use brawnesk_tests::compare::{one_seed, seeds};
use brawnesk_tests::ffi::{self, Answer, SESSION};
use brawnesk_tests::in_each_profile;
use brawnesk_tests::moving::{by_hand, by_model, movable, Move, MoveTally};
use brawnesk_tests::rng::Rng;
use std::hint::black_box;

/// In each profile.
const MOVES: u64 = 6_000;

/// Policies whose verdicts are asked before and after a move, in each profile.
const POLICIES: u64 = 300;

in_each_profile! {
    the_library_agrees_with_the_model
    verdicts_stay
}

/// Asks the library. The image has to stay as it is.
fn ask(image: &[u8], buffer: &mut [u8]) -> Answer {
    let own = image.to_vec();
    let answer = raw::move_up(black_box(&own), black_box(buffer));
    assert!(*black_box(&own) == *image, "image changed");
    answer
}

/// Asks both. The answer and every byte of the buffer have to be the model's.
fn compare(image: &[u8], buffer: &[u8], case: &str) -> Answer {
    let mut given = buffer.to_vec();
    let answer = ask(image, &mut given);
    let (wanted, after) = by_model(image, buffer);
    assert_eq!(answer, wanted, "{case}");
    assert!(given == after, "{case}: buffer of {} bytes", buffer.len());
    answer
}

fn the_library_agrees_with_the_model(profile: Profile) {
    let mut tally = MoveTally::default();
    for seed in seeds(0..MOVES) {
        let it = Move::new(profile, seed);
        let mut given = it.buffer.clone();
        assert_eq!(ask(&it.image, &mut given), it.answer, "seed {seed}");
        assert!(given == it.after, "seed {seed}: buffer");
        tally.add(&it);
    }
    println!("{tally:?}");
    if one_seed().is_none() {
        tally.assert_varied(profile, 20);
    }
}

#[test]
fn answers_by_hand() {
    by_hand::check(&ask);
}

/// As large as can be moved.
fn largest(variant: Variant) -> Sizes {
    Sizes {
        labels: 800,
        users: 32,
        ..Sizes::full(variant)
    }
}

/// Header, 160 components, 80 blocks of labels and 16 of users.
const LARGEST: usize = 111 * 512;

const ROOMS: [usize; 7] = [
    0,
    512,
    LARGEST - 512,
    LARGEST - 1,
    LARGEST,
    LARGEST + 1,
    65_536,
];

/// The largest that can be moved, with each form of parents, in buffers around the length that is needed;
/// and the same with users who hold COMPACCESS, which can't.
#[test]
fn the_largest_move() {
    for tree in Tree::ALL {
        let policy = random_with(tree, largest(Edition::One.tree()), &mut Rng::new(4));
        assert!(!policy.holders().is_empty());
        let held = to_image(&policy);
        let image = to_image(&policy.held_by(&[]));
        for room in ROOMS {
            let answer = compare(&image, &vec![7; room], &format!("{tree:?}"));
            assert_eq!(answer == Answer::Done(LARGEST as u64), room >= LARGEST);
            let answer = compare(&held, &vec![7; room], &format!("{tree:?}, held"));
            assert!(matches!(answer, Answer::Refused { number: 36, .. }));
        }
    }
}

/// The same in the release profile, where nobody holds it. The profile stays, and the moved image is the builder's.
#[test]
fn the_largest_move_of_a_release_image() {
    let policy = random(largest(Edition::One.release()), &mut Rng::new(4));
    let image = to_image(&policy);
    let wanted = to_image(&policy.in_edition(Edition::Two));
    for room in ROOMS {
        let mut buffer = vec![7; room];
        let answer = compare(&image, &buffer, "a release image");
        assert_eq!(answer == Answer::Done(LARGEST as u64), room >= LARGEST);
        ask(&image, &mut buffer);
        assert_eq!(buffer.starts_with(&wanted), room >= LARGEST);
    }
}

/// Byte 12 of the header tells the profile before and after.
#[test]
fn the_partners_are_moved() {
    let image = to_image(&partners());
    let wanted = to_image(&partners().in_edition(Edition::Two));
    let mut moved = vec![0; wanted.len()];
    assert_eq!(ask(&image, &mut moved), Answer::Done(wanted.len() as u64));
    assert_eq!(moved, wanted);
    assert_eq!([image[4], image[12]], [1, 1]);
    assert_eq!([moved[4], moved[12]], [2, 1]);
    assert_eq!(ffi::check(&moved), Answer::Done(0));
}

/// The verdicts on a tag under a session, if that is accepted.
fn verdicts(image: &[u8], session: &[u8; SESSION], tag: u32) -> [Answer; 2] {
    let (read, write) = (Call::MayRead(tag), Call::MayWrite(tag));
    [read, write].map(|call| call.by_library(image, &mut session.clone()))
}

/// The moved image is accepted, its users open the same sessions, and these have the same verdicts on
/// known tags. On unknown ones they are denied.
fn verdicts_stay(profile: Profile) {
    let mut unknown = 0;
    for seed in seeds(0..POLICIES) {
        let policy = movable(profile, &mut Rng::new(seed));
        let image = to_image(&policy);
        let mut moved = vec![0; 65_536];
        let Answer::Done(length) = ask(&image, &mut moved) else {
            panic!("seed {seed}: the image is refused");
        };
        moved.truncate(length as usize);
        assert_eq!(ffi::check(&moved), Answer::Done(0), "seed {seed}");
        let tags: Vec<u32> = policy.labels.iter().map(|label| label.tag).collect();
        for user in policy.users.iter().take(4) {
            let [mut before, mut after] = [[0; SESSION]; 2];
            ffi::open(&image, user.name.as_bytes(), &mut before);
            ffi::open(&moved, user.name.as_bytes(), &mut after);
            assert_eq!(before, after, "seed {seed}: {}", user.name);
            for &tag in tags.iter().take(40) {
                let [one, two] = [&image, &moved].map(|it| verdicts(it, &before, tag));
                assert_eq!(one, two, "seed {seed}: {} on {tag}", user.name);
            }
            assert_eq!(verdicts(&moved, &before, 0), [Answer::Done(0); 2]);
            unknown += usize::from(verdicts(&image, &before, 0)[0] == Answer::Done(1));
        }
    }
    assert!(one_seed().is_some() || unknown >= 50, "{unknown}");
}

/// Images and buffers may begin anywhere, and nothing around the buffer changes.
#[test]
fn alignment_does_not_matter() {
    let image = to_image(&sample());
    let (_, wanted) = by_model(&image, &[0; 2_048]);
    for shift in 0..8 {
        let lent = [&vec![255; shift], image.as_slice()].concat();
        let mut bytes = vec![0xa5; 2_048 + 8];
        let start = 7 - shift;
        let answer = raw::move_up(&lent[shift..], &mut bytes[start..start + 2_048]);
        assert_eq!(answer, Answer::Done(2_048));
        assert!(bytes[start..start + 2_048] == wanted);
        let around = [&bytes[..start], &bytes[start + 2_048..]].concat();
        assert_eq!(around, [0xa5; 8]);
    }
}
