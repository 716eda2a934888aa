//! Wrong maps and broken sessions, lent to the compiled calls of request R-4: every bit of a map, every bit of a
//! session, every way to break a session, every byte of privileges.
//!
//! A wrong answer names its seed; `BRAWNESK_SEED=<seed> cargo test --release` compares that seed alone.

use brawnesk_tests::builder::{random, sample, to_image, Edition, Policy, Profile, Sizes, Variant};
use brawnesk_tests::compare::{one_seed, seeds, CallTally, Checked};
use brawnesk_tests::ffi::{Answer, SESSION};
use brawnesk_tests::maps::facts::own_map;
use brawnesk_tests::maps::{ask, by_hand, compare, every_wrong, MapCall};
use brawnesk_tests::pairs::Program;
use brawnesk_tests::rng::Rng;
use brawnesk_tests::row_calls::{Lent, RowCall};
use brawnesk_tests::tables::{by_hand::lent as maras, numbers::bytes, row};
use brawnesk_tests::vectors::opened;
use brawnesk_tests::walk::{policy, spoil_unused, Break};
use brawnesk_tests::{in_each_edition, in_each_variant};

in_each_variant! {
    every_wrong_map_is_refused
    broken_sessions_are_refused
    every_bit_of_a_session
}

in_each_edition! {
    every_privilege_byte
}

const WIDTH: usize = 6;

const fn refused(number: u32) -> Answer {
    Answer::Refused { number, place: 0 }
}

/// A read by a map at a width.
fn mapped(width: usize, map: &[u8]) -> MapCall {
    let map = map.to_vec();
    MapCall::Read(RowCall::ReadMapped { width, map })
}

/// The session of the first user, rows of all labels' tags and of unknown ones, and a buffer that holds them all.
fn lent(policy: &Policy, rng: &mut Rng) -> Lent {
    let tags = policy.labels.iter().map(|label| label.tag);
    let tags = tags.chain([0, 100_000_000, u32::MAX]);
    let table: Vec<u8> = tags.flat_map(|tag| row(tag, WIDTH, rng)).collect();
    Lent {
        session: opened(policy, &policy.users[0].name),
        buffer: bytes(table.len() + 9, rng),
        table,
    }
}

/// For 0 labels and some more, up to as many as there may be: the right map is accepted, and each wrong one is
/// refused, also without rows and with no room. No lent byte changes.
fn every_wrong_map_is_refused(variant: Variant) {
    let most = variant.edition.most_labels();
    let mut rng = Rng::new(4);
    for labels in (0..=17).chain([24, 25, most - 1, most]) {
        let sizes = Sizes {
            labels,
            users: 1,
            ..Sizes::small(variant, &mut rng)
        };
        let policy = random(sizes, &mut rng);
        let image = to_image(&policy);
        let lent = lent(&policy, &mut rng);
        let bare = Lent {
            table: Vec::new(),
            buffer: Vec::new(),
            ..lent.clone()
        };
        let right = own_map(Program::Library, &Checked::new(&image), &lent.session);
        let right = right.expect("an opened session keeps its rules");
        assert_eq!(right.len(), labels.div_ceil(8));
        compare(&image, &MapCall::Judge(right.clone()), &lent, "right");
        compare(&image, &mapped(WIDTH, &right), &lent, "right");
        for wrong in every_wrong(&right) {
            let read = mapped(WIDTH, &wrong);
            for (call, lent) in [
                (&MapCall::Judge(wrong), &lent),
                (&read, &lent),
                (&read, &bare),
            ] {
                let mut given = lent.clone();
                assert_eq!(ask(&image, call, &mut given), refused(20), "{call:?}");
                assert_eq!(given.difference(lent), None, "{call:?}");
            }
        }
    }
}

/// Each call with arguments that are wrong, but which 19 comes before.
fn wrong_calls() -> [MapCall; 4] {
    [
        MapCall::Make,
        MapCall::Judge(vec![255; 300]),
        mapped(5, &[255; 300]),
        mapped(usize::MAX, &[]),
    ]
}

/// Whatever is broken, each call refuses the session before it looks at a width, a map or a buffer.
fn broken_sessions_are_refused(variant: Variant) {
    let mut tally = CallTally::default();
    for seed in seeds(0..400) {
        let mut rng = Rng::new(seed);
        let policy = policy(variant, &mut rng);
        for user in policy.users.iter().take(4) {
            let session = opened(&policy, &user.name);
            break_in_each_way(&policy, session, seed, &mut tally);
        }
    }
    if one_seed().is_some() {
        return;
    }
    for way in Break::ALL {
        let name = format!("{way:?}");
        for call in wrong_calls() {
            tally.assert_least(call.name(), &[&name], 50);
        }
    }
}

fn break_in_each_way(policy: &Policy, session: [u8; SESSION], seed: u64, tally: &mut CallTally) {
    let mut rng = Rng::new(seed);
    let image = to_image(policy);
    for way in Break::ALL {
        let mut lent = Lent {
            session,
            table: bytes(30, &mut rng),
            buffer: Vec::new(),
        };
        if way.apply(policy, &mut lent.session, &mut rng).is_none() {
            continue;
        }
        spoil_unused(&mut lent.session, &mut rng);
        for call in wrong_calls() {
            let answer = compare(&image, &call, &lent, &format!("{way:?}, seed {seed}"));
            assert_eq!(answer, refused(19), "seed {seed}: {way:?}, {call:?}");
            tally.count(call.name(), format!("{way:?}"));
        }
    }
}

/// Every bit of a user's session, turned, with the map of the session as it was and with the map of the turned one.
fn every_bit_of_a_session(variant: Variant) {
    let policy = match variant.profile {
        Profile::Tree => by_hand::labelled(variant.edition, 9),
        Profile::Release => variant.sample(),
    };
    let image = to_image(&policy);
    let checked = Checked::new(&image);
    let whole = lent(&policy, &mut Rng::new(4));
    let old = own_map(Program::Library, &checked, &whole.session);
    let old = old.expect("an opened session keeps its rules");
    let mut tally = CallTally::default();
    for bit in 0..8 * SESSION {
        let mut lent = whole.clone();
        lent.session[bit / 8] ^= 1 << (bit % 8);
        let new = own_map(Program::Library, &checked, &lent.session);
        let new = new.unwrap_or_else(|_| old.clone());
        for map in [&old, &new] {
            for call in [
                MapCall::Make,
                MapCall::Judge(map.clone()),
                mapped(WIDTH, map),
            ] {
                let answer = compare(&image, &call, &lent, &format!("bit {bit}"));
                tally.add(call.name(), false, answer);
            }
        }
    }
    println!("{tally:?}");
    for call in ["map", "judge_map", "read_mapped"] {
        tally.assert_least(call, &["done", "19"], 200);
    }
    // A session label without GLAZE, say, has another map.
    for call in ["judge_map", "read_mapped"] {
        tally.assert_least(call, &["20"], 1);
    }
}

/// Each byte of privileges of MARA, also those that are refused: her map by labels and the one with every bit.
fn every_privilege_byte(edition: Edition) {
    let mut tally = CallTally::default();
    for privileges in 0..=255 {
        let mut policy = sample().in_edition(edition);
        policy.users[0].privileges = privileges;
        let image = to_image(&policy);
        for map in [5, 7] {
            let calls = [MapCall::Make, MapCall::Judge(vec![map]), mapped(7, &[map])];
            for call in calls {
                let answer = compare(&image, &call, &maras(50), &format!("{privileges}"));
                tally.add(call.name(), false, answer);
            }
        }
    }
    println!("{tally:?}");
    let numbers = ["done", "34"];
    tally.assert_least("map", &numbers, 100);
    for call in ["judge_map", "read_mapped"] {
        tally.assert_least(call, &[&numbers[..], &["20"]].concat(), 50);
    }
}
