//! The compiled calls on sessions against the model: opening, new labels, and verdicts.
//!
//! A wrong answer names its seed; `BRAWNESK_SEED=<seed> cargo test --release` compares that seed alone.

use brawnesk_tests::builder::{sample, to_image, Edition, Profile, Variant};
use brawnesk_tests::calls::Call;
use brawnesk_tests::compare::{one_seed, seeds};
use brawnesk_tests::ffi::{self, Answer, SESSION};
use brawnesk_tests::model;
use brawnesk_tests::rng::Rng;
use brawnesk_tests::vectors;
use brawnesk_tests::walk::{each_call, policy, spoil_unused, Break, WalkTally};
use brawnesk_tests::{in_each_edition, in_each_variant};
use std::hint::black_box;

/// In each edition and profile.
const POLICIES: u64 = 2_000;
const CALLS_EACH: usize = 200;

/// The byte of a session that holds the session label's level.
const LEVEL: usize = 12;

in_each_variant! {
    the_library_agrees_with_the_model
    broken_sessions_are_refused
    every_bit_of_a_session
    vectors_of_sessions
}

in_each_edition! {
    alignment_does_not_matter
}

/// The library's answer, and the session after it. A session that is only lent to be read is looked at
/// too.
fn ask(call: &Call, image: &[u8], lent: &[u8; SESSION]) -> (Answer, [u8; SESSION]) {
    let mut session = *lent;
    let answer = call.by_library(image, black_box(&mut session));
    (answer, *black_box(&session))
}

/// Each answer is the model's. A refusal leaves the session as it was; otherwise all bytes are as the
/// model has them.
fn the_library_agrees_with_the_model(variant: Variant) {
    let mut tally = WalkTally::default();
    for seed in seeds(0..POLICIES) {
        each_call(variant, seed, CALLS_EACH, |step| {
            let (answer, session) = ask(&step.call, step.image, &step.lent);
            let (call, lent) = (&step.call, &step.lent);
            assert_eq!(answer, step.answer, "seed {seed}: {call:?} on {lent:?}");
            assert_eq!(session, step.session, "seed {seed}: {call:?} on {lent:?}");
            tally.add(step);
        });
    }
    println!("{tally:?}");
    if one_seed().is_none() {
        tally.assert_varied(variant, 50);
    }
}

/// Each call on a session, with texts that 5 refuses and tags that only READ and FULL see.
fn calls_on_sessions() -> [Call; 4] {
    [
        Call::SetLabel(b"::".to_vec()),
        Call::SetRowLabel(Vec::new()),
        Call::MayRead(0),
        Call::MayWrite(u32::MAX),
    ]
}

/// Whatever is broken, each call refuses the session before it looks at a text. READ and FULL change
/// nothing about it.
fn broken_sessions_are_refused(variant: Variant) {
    let refused = Answer::Refused {
        number: 19,
        place: 0,
    };
    for seed in seeds(0..400) {
        let mut rng = Rng::new(seed);
        let policy = policy(variant, &mut rng);
        let image = to_image(&policy);
        for user in policy.users.iter().take(4) {
            let mut opened = [rng.byte(); SESSION];
            let answer = ffi::open(&image, user.name.as_bytes(), &mut opened);
            assert_eq!(answer, Answer::Done(0), "seed {seed}: {}", user.name);
            for way in Break::ALL {
                let mut lent = opened;
                if way.apply(&policy, &mut lent, &mut rng).is_none() {
                    continue;
                }
                spoil_unused(&mut lent, &mut rng);
                for call in calls_on_sessions() {
                    let case = format!("seed {seed}: {way:?}, {call:?} on {lent:?}");
                    assert_eq!(ask(&call, &image, &lent), (refused, lent), "{case}");
                }
            }
        }
    }
}

/// MARA or, in the release profile, NILS; with a session label and a row label that may be set.
fn user_and_labels(profile: Profile) -> [&'static [u8]; 3] {
    match profile {
        Profile::Tree => [b"MARA", b"VAULT:KILN:DOCK", b"CREW:KILN"],
        Profile::Release => [
            b"NILS",
            b"SEALED:PRICES:HARBOUR,MILL",
            b"TRADE:PRICES:HARBOUR,MILL,ORCHARD",
        ],
    }
}

/// Every bit of a user's session, turned, with every call.
fn every_bit_of_a_session(variant: Variant) {
    let image = to_image(&variant.sample());
    let checked = model::accepted(&image);
    let [name, label, row] = user_and_labels(variant.profile);
    let mut opened = [0; SESSION];
    assert_eq!(ffi::open(&image, name, &mut opened), Answer::Done(0));
    let calls = [
        Call::Open(name.to_vec()),
        Call::SetLabel(label.to_vec()),
        Call::SetRowLabel(row.to_vec()),
        Call::MayRead(10),
        Call::MayWrite(10),
        Call::MayRead(20),
        Call::MayWrite(20),
        Call::MayRead(30),
        Call::MayWrite(30),
    ];
    for call in &calls[..3] {
        let (answer, _) = ask(call, &image, &opened);
        assert_eq!(answer, Answer::Done(0), "{call:?}");
    }
    for bit in 0..8 * SESSION {
        let mut lent = opened;
        lent[bit / 8] ^= 1 << (bit % 8);
        for call in &calls {
            let mut wanted = lent;
            let answer = call.by_model(&checked, &mut wanted);
            let given = ask(call, &image, &lent);
            assert_eq!(given, (answer, wanted), "bit {bit}, {call:?}");
        }
    }
}

/// Names, texts, sessions and images may begin anywhere.
fn alignment_does_not_matter(edition: Edition) {
    let image = to_image(&sample().in_edition(edition));
    for shift in 0..8 {
        let lent = [&vec![255; shift], image.as_slice()].concat();
        let name = [&b"########"[shift..], b"MARA"].concat();
        let text = [&b"########"[shift..], b"VAULT:KILN:DOCK"].concat();
        let mut bytes = [0xa5; SESSION + 8];
        let (image, name, text) = (&lent[shift..], &name[8 - shift..], &text[8 - shift..]);
        let session: &mut [u8; SESSION] = (&mut bytes[shift..shift + SESSION])
            .try_into()
            .expect("as many bytes as a session has");
        assert_eq!(ffi::open(image, name, session), Answer::Done(0));
        assert_eq!(ffi::may_read(image, session, 10), Answer::Done(1));
        assert_eq!(ffi::may_write(image, session, 30), Answer::Done(0));
        assert_eq!(ffi::set_label(image, session, text), Answer::Done(0));
        let refused = Answer::Refused {
            number: 8,
            place: 0,
        };
        assert_eq!(ffi::set_row_label(image, session, b"OPEN"), refused);
        assert_eq!(session[LEVEL], 2);
        let around = [&bytes[..shift], &bytes[shift + SESSION..]].concat();
        assert_eq!(around, [0xa5; 8]);
    }
}

fn vectors_of_sessions(variant: Variant) {
    for section in vectors::sessions(variant) {
        assert_eq!(ffi::check(&section.image), Answer::Done(0));
        for case in &section.cases {
            case.run(|call, session| call.by_library(&section.image, session));
        }
    }
}
