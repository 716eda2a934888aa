//! The compiled `brawnesk_compaccess_users` and `brawnesk_clear_compaccess` against the model, and the calls
//! on the images before and after a clearing move.
//!
//! A wrong answer names its seed; `BRAWNESK_SEED=<seed> cargo test --release` compares that seed alone.

#[path = "move_up/raw.rs"]
mod moving;
#[path = "compaccess/raw.rs"]
mod raw;

use brawnesk_tests::builder::{full, partners, to_image};
use brawnesk_tests::builder::{Edition, Policy, Profile, Variant};
use brawnesk_tests::compaccess::{by_hand, each_verdict, held, Asked};
use brawnesk_tests::compaccess::{HolderCall, HolderTally, VerdictTally};
use brawnesk_tests::compare::{one_seed, seeds, CallTally};
use brawnesk_tests::ffi::{self, Answer, SESSION};
use brawnesk_tests::in_each_profile;
use brawnesk_tests::moving::{by_hand::sized, by_model, policy};
use brawnesk_tests::pairs::Program;
use brawnesk_tests::rng::Rng;
use std::hint::black_box;

in_each_profile! {
    the_library_agrees_with_the_model
}

/// Images, each of which both calls are asked on, in each profile.
const IMAGES: u64 = 12_000;

/// Policies whose verdicts are asked before and after a clearing move.
const POLICIES: u64 = 1_000;

/// Policies that are cleared and then moved up.
const MOVED: u64 = 400;

/// Asks the library. The image has to stay as it is.
fn ask(call: HolderCall, image: &[u8], buffer: &mut [u8]) -> Answer {
    let own = image.to_vec();
    let answer = raw::ask(call, black_box(&own), black_box(buffer));
    assert!(*black_box(&own) == *image, "image changed");
    answer
}

/// Asks both for both calls. The answer and every byte of the buffer have to be the model's. Buffers are
/// of the length that is needed, one byte less and more, far more, and of no bytes.
fn compare(image: &[u8], case: &str) {
    for call in HolderCall::ALL {
        let whole = call.bytes(image, usize::MAX);
        let needed = whole.map_or(0, |bytes| bytes.len());
        for room in [
            0,
            needed.saturating_sub(1),
            needed,
            needed + 1,
            needed + 600,
        ] {
            let buffer = vec![0xa5; room];
            let mut given = buffer.clone();
            let answer = ask(call, image, &mut given);
            let (wanted, after) = call.by_model(image, &buffer);
            assert_eq!(answer, wanted, "{case}: {call:?}, {room} bytes");
            assert!(given == after, "{case}: {call:?}, {room} bytes");
        }
    }
}

/// The cleared image by the library.
fn clear(image: &[u8]) -> Vec<u8> {
    let mut cleared = vec![0; image.len()];
    let answer = ask(HolderCall::Clear, image, &mut cleared);
    assert_eq!(answer, Answer::Done(image.len() as u64));
    cleared
}

fn the_library_agrees_with_the_model(profile: Profile) {
    let mut tally = HolderTally::default();
    for seed in seeds(0..IMAGES) {
        for it in Asked::both(profile, seed) {
            let mut given = it.buffer.clone();
            let answer = ask(it.call, &it.image, &mut given);
            assert_eq!(answer, it.answer, "seed {seed}: {:?}", it.call);
            assert!(given == it.after, "seed {seed}: {:?}, buffer", it.call);
            tally.add(&it);
        }
    }
    println!("{tally:?}");
    if one_seed().is_none() {
        tally.assert_varied(profile, 40);
    }
}

#[test]
fn answers_by_hand() {
    by_hand::check(&ask);
}

/// Every set of holders among seven users, who stand in three blocks; and what a move up says of it.
#[test]
fn every_set_of_holders() {
    for bits in 0..128_usize {
        let holders: Vec<usize> = (0..7).filter(|place| bits >> place & 1 == 1).collect();
        let image = to_image(&sized(3, 7).held_by(&holders));
        compare(&image, &format!("{holders:?}"));
        let mut moved = vec![0xa5; 4_096];
        let (wanted, after) = by_model(&image, &moved);
        assert_eq!(moving::move_up(&image, &mut moved), wanted, "{holders:?}");
        assert!(moved == after, "{holders:?}");
        let is_refused = matches!(wanted, Answer::Refused { number: 36, .. });
        assert_eq!(is_refused, bits != 0);
    }
}

/// Each user of the largest image alone, nobody, and all of them.
#[test]
fn every_user_of_the_largest_image() {
    let policy = full(Edition::One);
    let all: Vec<usize> = (0..policy.users.len()).collect();
    assert_eq!(all.len(), 96);
    let alone = all.iter().map(|place| vec![*place]);
    for holders in alone.chain([vec![], all.clone()]) {
        let image = to_image(&policy.clone().held_by(&holders));
        compare(&image, &format!("{holders:?}"));
    }
}

/// Each byte of privileges in each edition and profile, also those that are refused.
#[test]
fn every_privilege_byte() {
    for variant in Variant::ALL {
        for privileges in 0..=255 {
            let mut policy = variant.sample();
            policy.users[0].privileges = privileges;
            compare(&to_image(&policy), &format!("{variant:?}, {privileges}"));
        }
    }
}

/// A release image has no holders: the list is empty, and the cleared image is the same.
#[test]
fn release_images_are_cleared_to_themselves() {
    for policy in [partners(), full(Edition::One.release())] {
        let image = to_image(&policy);
        assert_eq!(ask(HolderCall::Users, &image, &mut []), Answer::Done(0));
        assert_eq!(clear(&image), image);
        compare(&image, "a release image");
        let held = to_image(&policy.held_by(&[1]));
        assert!(matches!(
            ask(HolderCall::Users, &held, &mut []),
            Answer::Refused { number: 34, .. }
        ));
        compare(&held, "a release image, held");
    }
}

/// Users without the bit keep all verdicts, and holders lose none but those that COMPACCESS alone gave.
#[test]
fn verdicts_by_compaccess_alone_are_lost() {
    let mut tally = VerdictTally::default();
    for seed in seeds(0..POLICIES) {
        each_verdict(seed, Program::Library, clear, |verdict| {
            verdict.assert_right(&format!("seed {seed}"));
            tally.add(verdict);
        });
    }
    println!("{tally:?}");
    if one_seed().is_none() {
        tally.assert_varied(500);
    }
}

/// The session of a user as it is opened under an image.
fn opened(image: &[u8], name: &str) -> [u8; SESSION] {
    let mut session = [0xa5; SESSION];
    let answer = ffi::open(image, name.as_bytes(), &mut session);
    assert_eq!(answer, Answer::Done(0), "{name}");
    session
}

/// Clears an image and moves it up. The cleared image is accepted and nobody in it holds the bit, the move up
/// is done, and all users open the same sessions.
fn cleared_and_moved(policy: &Policy, case: &str) {
    let image = to_image(policy);
    let cleared = clear(&image);
    assert_eq!(ffi::check(&cleared), Answer::Done(0), "{case}");
    let list = ask(HolderCall::Users, &cleared, &mut []);
    assert_eq!(list, Answer::Done(0), "{case}");
    let mut moved = vec![0; 65_536];
    let Answer::Done(length) = moving::move_up(&cleared, &mut moved) else {
        panic!("{case}: the cleared image is refused");
    };
    moved.truncate(length as usize);
    assert_eq!(ffi::check(&moved), Answer::Done(0), "{case}");
    for user in policy.users.iter().take(8) {
        let [one, two, three] = [&image, &cleared, &moved].map(|it| opened(it, &user.name));
        assert_eq!(one, two, "{case}: {}", user.name);
        assert_eq!(one, three, "{case}: {}", user.name);
    }
}

/// A plain move up tells how many users hold the bit, and a cleared image is moved up.
#[test]
fn cleared_images_are_moved_up() {
    let mut seen = CallTally::default();
    for seed in seeds(0..MOVED) {
        let mut rng = Rng::new(seed);
        let policy = held(policy(Edition::One, &mut rng), &mut rng);
        let plain = moving::move_up(&to_image(&policy), &mut vec![0; 65_536]);
        let holders = policy.holders().len() as u32;
        match plain {
            Answer::Done(_) => assert_eq!(holders, 0, "seed {seed}"),
            Answer::Refused { number, place } => {
                assert_eq!((number, place), (36, holders), "seed {seed}");
            }
        }
        seen.add("move_up", false, plain);
        cleared_and_moved(&policy, &format!("seed {seed}"));
    }
    println!("{seen:?}");
    if one_seed().is_none() {
        seen.assert_least("move_up", &["done", "36"], 50);
    }
}

/// Images and buffers may begin anywhere, and nothing around the buffer changes.
#[test]
fn alignment_does_not_matter() {
    let image = to_image(&sized(3, 7).held_by(&[0, 2, 3, 6]));
    for call in HolderCall::ALL {
        let wanted = call.bytes(&image, usize::MAX).expect("it is accepted");
        let needed = wanted.len();
        for shift in 0..8 {
            let lent = [&vec![255; shift], image.as_slice()].concat();
            let mut bytes = vec![0xa5; needed + 8];
            let start = 7 - shift;
            let answer = raw::ask(call, &lent[shift..], &mut bytes[start..start + needed]);
            assert_eq!(answer, Answer::Done(needed as u64));
            assert!(bytes[start..start + needed] == wanted);
            let around = [&bytes[..start], &bytes[start + needed..]].concat();
            assert_eq!(around, [0xa5; 8]);
        }
    }
}
