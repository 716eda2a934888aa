//! The model of sessions and verdicts by itself, and what it is compared on.

use brawnesk_tests::builder::{sample, to_image, Edition, Profile, Variant};
use brawnesk_tests::calls::Call;
use brawnesk_tests::ffi::{Answer, SESSION};
use brawnesk_tests::model::{accepted, check, Label, Session};
use brawnesk_tests::rng::Rng;
use brawnesk_tests::vectors;
use brawnesk_tests::walk::{each_call, policy, Break, WalkTally};
use brawnesk_tests::{in_each_edition, in_each_variant};

in_each_edition! {
    vectors_are_of_the_sample
}

in_each_variant! {
    vectors_of_sessions
    walks_are_varied
    each_break_is_refused
}

fn vectors_of_sessions(variant: Variant) {
    let mut cases = 0;
    for section in vectors::sessions(variant) {
        assert_eq!(check(&section.image), Ok(()), "{}", section.cases[0].line);
        let checked = accepted(&section.image);
        for case in &section.cases {
            case.run(|call, session| call.by_model(&checked, session));
            cases += 1;
        }
    }
    let least = match variant.profile {
        Profile::Tree => 200,
        Profile::Release => 120,
    };
    assert!(cases >= least, "{cases} cases");
}

/// The last file's policy is the sample's.
fn vectors_are_of_the_sample(edition: Edition) {
    let sections = vectors::sessions(edition.tree());
    let mut last = sections
        .into_iter()
        .last()
        .expect("the files have sections");
    last.policy.labels = sample().labels;
    let sample = to_image(&sample().in_edition(edition));
    assert_eq!(to_image(&last.policy), sample);
}

/// The walks for comparing go everywhere.
fn walks_are_varied(variant: Variant) {
    let mut tally = WalkTally::default();
    for seed in 0..2_000 {
        each_call(variant, seed, 200, |step| tally.add(step));
    }
    println!("{tally:?}");
    tally.assert_varied(variant, 50);
}

/// Each way to break a session applies often, and the session is then refused.
fn each_break_is_refused(variant: Variant) {
    let refused = Answer::Refused {
        number: 19,
        place: 0,
    };
    let mut applied = vec![0; Break::ALL.len()];
    for seed in 0..400 {
        let mut rng = Rng::new(seed);
        let policy = policy(variant, &mut rng);
        let image = to_image(&policy);
        let checked = accepted(&image);
        for user in policy.users.iter().take(4) {
            let mut opened = [0; SESSION];
            let call = Call::Open(user.name.clone().into_bytes());
            assert_eq!(call.by_model(&checked, &mut opened), Answer::Done(0));
            for (way, applied) in Break::ALL.iter().zip(&mut applied) {
                let mut lent = opened;
                if way.apply(&policy, &mut lent, &mut rng).is_some() {
                    let answer = Call::MayRead(0).by_model(&checked, &mut lent);
                    assert_eq!(answer, refused, "seed {seed}: {way:?}");
                    *applied += 1;
                }
            }
        }
    }
    println!("{:?}", Break::ALL.iter().zip(&applied).collect::<Vec<_>>());
    assert!(applied.iter().all(|&times| times >= 50), "{applied:?}");
}

#[test]
fn bytes_of_a_session() {
    let label = |level: usize, group: usize| Label {
        level,
        compartments: [9].into(),
        groups: [group].into(),
    };
    let session = Session {
        user: 95,
        signed_on: 3,
        label: label(7, 64),
        row: label(5, 255),
    };
    let mut bytes = session.to_bytes();
    let set = [
        (0, 95),
        (1, 3),
        (12, 7),
        (17, 2),
        (32, 1),
        (60, 5),
        (65, 2),
        (103, 128),
    ];
    for (at, byte) in set {
        assert_eq!(bytes[at], byte, "byte {at}");
    }
    assert_eq!(bytes.iter().filter(|&&byte| byte != 0).count(), set.len());
    for unused in [2..12, 13..16, 56..60, 61..64] {
        bytes[unused].fill(255);
    }
    assert_eq!(Session::read(&bytes), session);
}
