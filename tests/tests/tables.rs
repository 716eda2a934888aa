//! The compiled calls on a table's rows against the model: reading, updating, masked reading and mapped reading.
//!
//! A wrong answer names its seed; `BRAWNESK_SEED=<seed> cargo test --release` compares that seed alone.

use brawnesk_tests::builder::{sample, to_image, Edition, Profile, Variant};
use brawnesk_tests::compare::{one_seed, seeds};
use brawnesk_tests::ffi::{self, Answer, SESSION};
use brawnesk_tests::model;
use brawnesk_tests::rng::Rng;
use brawnesk_tests::row_calls::{Lent, RowCall};
use brawnesk_tests::shifted::Shifted;
use brawnesk_tests::tables::numbers::bytes;
use brawnesk_tests::tables::{by_hand, each_row_call, row, RowTally};
use brawnesk_tests::walk::{policy, spoil_unused, Break};
use brawnesk_tests::{in_each_edition, in_each_variant};
use std::hint::black_box;

/// In each edition and profile.
const POLICIES: u64 = 2_000;
const CALLS_EACH: usize = 40;

in_each_variant! {
    the_library_agrees_with_the_model
    broken_sessions_are_refused
    every_bit_of_a_session
    every_bit_of_a_tag
}

in_each_edition! {
    answers_by_hand
    every_width
    alignment_does_not_matter
}

/// Asks the library. The image, a payload, a mask and a map have to stay as they are; what else is lent is
/// looked at by the caller.
fn ask(image: &[u8], call: &RowCall, lent: &mut Lent) -> Answer {
    let (own_image, own_call) = (image.to_vec(), call.clone());
    let answer = own_call.by_library(black_box(&own_image), black_box(lent));
    assert!(*black_box(&own_image) == *image, "{call:?}: image changed");
    assert!(*black_box(&own_call) == *call, "{call:?}: part changed");
    answer
}

/// Asks both. The answer and every lent byte have to be the model's.
fn compare(image: &[u8], call: &RowCall, lent: &Lent, case: &str) -> Answer {
    let (mut given, mut wanted) = (lent.clone(), lent.clone());
    let answer = ask(image, call, &mut given);
    let expected = call.by_model(&model::accepted(image), &mut wanted);
    assert_eq!(answer, expected, "{case}: {call:?}");
    assert_eq!(given.difference(&wanted), None, "{case}: {call:?}");
    answer
}

fn the_library_agrees_with_the_model(variant: Variant) {
    let mut tally = RowTally::default();
    for seed in seeds(0..POLICIES) {
        each_row_call(variant, seed, CALLS_EACH, |step| {
            let call = &step.call;
            let mut given = step.lent.clone();
            let answer = ask(step.image, call, &mut given);
            assert_eq!(answer, step.answer, "seed {seed}: {call:?}");
            let difference = given.difference(&step.after);
            assert_eq!(difference, None, "seed {seed}: {call:?}");
            tally.add(step);
        });
    }
    println!("{tally:?}");
    if one_seed().is_none() {
        tally.assert_varied(variant, 50);
    }
}

fn answers_by_hand(edition: Edition) {
    by_hand::check(edition, &ask);
}

/// Each call with arguments that are wrong, but which 19 comes before.
fn wrong_calls() -> [RowCall; 4] {
    [
        RowCall::Read { width: 0 },
        RowCall::Update {
            width: 513,
            n: usize::MAX,
            payload: Vec::new(),
        },
        RowCall::Masked {
            width: usize::MAX,
            place: usize::MAX,
            mask: Vec::new(),
        },
        RowCall::ReadMapped {
            width: 4,
            map: vec![255; 300],
        },
    ]
}

/// Whatever is broken, each call refuses the session before it looks at the table.
fn broken_sessions_are_refused(variant: Variant) {
    let refused = Answer::Refused {
        number: 19,
        place: 0,
    };
    for seed in seeds(0..400) {
        let mut rng = Rng::new(seed);
        let policy = policy(variant, &mut rng);
        let image = to_image(&policy);
        for user in policy.users.iter().take(4) {
            let mut session = [0; SESSION];
            ffi::open(&image, user.name.as_bytes(), &mut session);
            for way in Break::ALL {
                let mut lent = Lent {
                    session,
                    table: bytes(30, &mut rng),
                    buffer: bytes(30, &mut rng),
                };
                if way.apply(&policy, &mut lent.session, &mut rng).is_none() {
                    continue;
                }
                spoil_unused(&mut lent.session, &mut rng);
                for call in wrong_calls() {
                    let answer = compare(&image, &call, &lent, &format!("{way:?}, seed {seed}"));
                    assert_eq!(answer, refused, "seed {seed}: {way:?}, {call:?}");
                }
            }
        }
    }
}

/// MARA's session, rows of these tags, and a buffer that holds them all.
fn maras(image: &[u8], tags: &[u32], width: usize) -> Lent {
    users(image, b"MARA", tags, width)
}

/// The same of a user.
fn users(image: &[u8], name: &[u8], tags: &[u32], width: usize) -> Lent {
    let mut rng = Rng::new(width as u64);
    let mut session = [0; SESSION];
    let opened = ffi::open(image, name, &mut session);
    assert_eq!(opened, Answer::Done(0));
    let table: Vec<u8> = tags
        .iter()
        .flat_map(|&tag| row(tag, width, &mut rng))
        .collect();
    Lent {
        session,
        buffer: bytes(table.len(), &mut rng),
        table,
    }
}

/// Each call at a width, on rows 0 to 3. A mapped read goes by MARA's map.
fn calls(width: usize, payload: usize) -> Vec<RowCall> {
    let row_calls = |at: usize| {
        let update = RowCall::Update {
            width,
            n: at,
            payload: vec![7; payload],
        };
        let masked = RowCall::Masked {
            width,
            place: at,
            mask: vec![9; 3],
        };
        [update, masked]
    };
    let mapped = RowCall::ReadMapped {
        width,
        map: vec![5],
    };
    let reads = [RowCall::Read { width }, mapped];
    (0..4).flat_map(row_calls).chain(reads).collect()
}

/// A user of the sample of a profile, and the tag of 10, 20 and 30 that the user doesn't read.
fn user_and_hidden(profile: Profile) -> (&'static [u8], u32) {
    match profile {
        Profile::Tree => (b"MARA", 20),
        Profile::Release => (b"HUGO", 30),
    }
}

/// Every bit of a user's session, turned, with every call.
fn every_bit_of_a_session(variant: Variant) {
    let image = to_image(&variant.sample());
    let (name, _) = user_and_hidden(variant.profile);
    let lent = users(&image, name, &[20, 10, 30], 9);
    for bit in 0..8 * SESSION {
        let mut lent = lent.clone();
        lent.session[bit / 8] ^= 1 << (bit % 8);
        for call in calls(9, 5) {
            compare(&image, &call, &lent, &format!("bit {bit}"));
        }
    }
}

/// Every bit of a known tag, turned: the tag is then unknown.
fn every_bit_of_a_tag(variant: Variant) {
    let image = to_image(&variant.sample());
    let (name, hidden) = user_and_hidden(variant.profile);
    for tag in [10, 20, 30] {
        let turned = (0..32).map(|bit| tag ^ 1 << bit);
        let tags: Vec<u32> = turned.chain([tag]).collect();
        let lent = users(&image, name, &tags, 5);
        let answer = compare(&image, &RowCall::Read { width: 5 }, &lent, "every bit");
        // The tags of a sample differ from each other in two bits or more.
        let readable = u64::from(tag != hidden);
        assert_eq!(answer, Answer::Done(readable), "tag {tag}");
        for n in 0..2 {
            let update = RowCall::Update {
                width: 5,
                n,
                payload: vec![n as u8],
            };
            compare(&image, &update, &lent, "every bit");
        }
    }
}

/// Every width from 0 on, with a table that has whole rows of it and with one byte more or less.
fn every_width(edition: Edition) {
    let image = to_image(&sample().in_edition(edition));
    for width in 0..=1_030 {
        let whole = maras(&image, &[30, 0, 10], width.max(5));
        for length in [0, 3 * width, 3 * width + 1, (3 * width).saturating_sub(1)] {
            let mut lent = whole.clone();
            lent.table.resize(length, 0);
            for payload in [width.saturating_sub(4), width] {
                for call in calls(width, payload) {
                    compare(&image, &call, &lent, &format!("length {length}"));
                }
            }
        }
    }
}

/// Images, sessions, tables, buffers, payloads and masks may begin anywhere.
fn alignment_does_not_matter(edition: Edition) {
    let whole = to_image(&sample().in_edition(edition));
    let lent = maras(&whole, &[20, 10, 0, 30], 7);
    for shift in 0..8 {
        let mut image = Shifted::new(shift, &whole);
        let mut session = Shifted::new(7 - shift, &lent.session);
        let mut table = Shifted::new(shift, &lent.table);
        let mut buffer = Shifted::new((shift + 3) % 8, &[0; 14]);
        let mut part = Shifted::new((shift + 5) % 8, b"new");
        let (image, part) = (image.inner(), part.inner());
        let lent_session: &[u8; SESSION] = (&*session.inner())
            .try_into()
            .expect("as many bytes as a session has");
        let rows = table.inner();
        let update = ffi::update(image, lent_session, rows, 7, 0, part);
        assert_eq!(update, Answer::Done(0));
        assert_eq!(rows[11..14], *b"new");
        let masked = ffi::masked(image, lent_session, rows, 7, 3, part);
        assert_eq!(masked, Answer::Done(1));
        let read = ffi::read(image, lent_session, rows, 7, buffer.inner());
        assert_eq!(read, Answer::Done(2));
        assert_eq!(*buffer.inner(), [&rows[7..14], &rows[21..]].concat());
        for lent in [&session, &table, &buffer] {
            lent.assert_around();
        }
    }
}
