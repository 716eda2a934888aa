//! The model of the list of COMPACCESS holders and of the clearing move by itself, and what it is compared
//! on.

use brawnesk_tests::builder::layout::BLOCK;
use brawnesk_tests::builder::{to_image, Edition, Policy, Profile, COMPACCESS};
use brawnesk_tests::compaccess::{by_hand, each_verdict, held, Asked, HolderTally, VerdictTally};
use brawnesk_tests::compare::CallTally;
use brawnesk_tests::ffi::Answer;
use brawnesk_tests::in_each_profile;
use brawnesk_tests::model::Refusal;
use brawnesk_tests::model::{accepted, check, clear_compaccess, compaccess_users, move_up};
use brawnesk_tests::moving::{around_limits, by_hand::sized, policy};
use brawnesk_tests::pairs::Program;
use brawnesk_tests::rng::Rng;
use brawnesk_tests::walk::each_call;
use std::collections::BTreeSet;

in_each_profile! {
    calls_are_varied
    refusals_are_those_of_the_move_up
}

#[test]
fn answers_by_hand() {
    by_hand::check(&|call, image, buffer| {
        let (answer, after) = call.by_model(image, buffer);
        buffer.copy_from_slice(&after);
        answer
    });
}

/// The calls for comparing go everywhere.
fn calls_are_varied(profile: Profile) {
    let mut tally = HolderTally::default();
    for seed in 0..6_000 {
        let both = Asked::both(profile, seed);
        both.iter().for_each(|it| tally.add(it));
    }
    println!("{tally:?}");
    tally.assert_varied(profile, 20);
}

fn clear(image: &[u8]) -> Vec<u8> {
    clear_compaccess(image, usize::MAX).expect("the image is accepted")
}

fn list(image: &[u8]) -> Vec<usize> {
    let list = compaccess_users(image, usize::MAX).expect("the image is accepted");
    list.into_iter().map(usize::from).collect()
}

/// A policy of edition 1 with any holders, at times over the limits of edition 2.
fn any_policy(seed: u64) -> Policy {
    let mut rng = Rng::new(seed);
    match seed % 8 {
        0 => around_limits(Profile::Tree, &mut rng),
        _ => held(policy(Edition::One, &mut rng), &mut rng),
    }
}

/// How many of a policy's users hold it.
fn kind(policy: &Policy) -> &'static str {
    match policy.holders().len() {
        0 => "nobody",
        1 => "one",
        count if count == policy.users.len() => "all",
        _ => "some",
    }
}

const KINDS: [&str; 4] = ["nobody", "one", "some", "all"];

/// The list is the builder's, and the cleared image is the one that the builder makes of the policy without
/// the bit: every other byte of it stays. Its move up is never refused 36.
#[test]
fn cleared_images_are_the_builders() {
    let mut seen = CallTally::default();
    for seed in 0..1_600 {
        let policy = any_policy(seed);
        let image = to_image(&policy);
        let cleared = clear(&image);
        assert_eq!(list(&image), policy.holders(), "seed {seed}");
        assert!(
            cleared == to_image(&policy.clone().held_by(&[])),
            "seed {seed}"
        );
        assert_eq!(check(&cleared), Ok(()), "seed {seed}");
        assert_eq!(list(&cleared), [], "seed {seed}");
        assert!(clear(&cleared) == cleared, "seed {seed}");
        let moved = match move_up(&cleared, usize::MAX) {
            Ok(_) => "moved",
            Err(Refusal::Size) => "37",
            Err(refusal) => panic!("seed {seed}: {refusal:?}"),
        };
        seen.count(kind(&policy), moved);
    }
    println!("{seen:?}");
    for kind in KINDS {
        seen.assert_least(kind, &["moved", "37"], 10);
    }
}

/// The cleared image differs from the old one in the bit of each holder and in both bytes of the check of
/// each block with a holder, and nowhere else.
#[test]
fn nothing_else_changes() {
    let mut seen = 0;
    for seed in 0..1_600 {
        let policy = any_policy(seed);
        let (image, holders) = (to_image(&policy), policy.holders());
        let users = holders.iter().map(|&place| policy.user_at(place));
        let wanted: BTreeSet<usize> = users
            .flat_map(|at| {
                let check = at.block * BLOCK + 510;
                [at.offset + 31, check, check + 1]
            })
            .collect();
        let cleared = clear(&image);
        assert_eq!(cleared.len(), image.len(), "seed {seed}");
        let changed = (0..image.len()).filter(|&at| image[at] != cleared[at]);
        assert_eq!(changed.collect::<BTreeSet<_>>(), wanted, "seed {seed}");
        for &place in &holders {
            let at = policy.user_at(place).offset + 31;
            assert_eq!(image[at] - cleared[at], COMPACCESS, "seed {seed}");
        }
        seen += holders.len();
    }
    assert!(seen >= 2_000, "{seen} holders");
}

/// Every set of holders among seven users, who stand in three blocks.
#[test]
fn every_set_of_holders() {
    for bits in 0..128_usize {
        let holders: Vec<usize> = (0..7).filter(|place| bits >> place & 1 == 1).collect();
        let policy = sized(3, 7).held_by(&holders);
        let image = to_image(&policy);
        assert_eq!(list(&image), holders);
        assert!(
            clear(&image) == to_image(&policy.held_by(&[])),
            "{holders:?}"
        );
        let moved = move_up(&image, usize::MAX);
        match holders.len() {
            0 => assert!(moved.is_ok()),
            count => assert_eq!(moved, Err(Refusal::Holders(count))),
        }
    }
}

/// What is refused is refused in the same words by both calls and by the move up, but for 36 and 37.
fn refusals_are_those_of_the_move_up(profile: Profile) {
    let mut seen = CallTally::default();
    for seed in 0..3_000 {
        let [list, clear] = Asked::both(profile, seed);
        let image = &list.image;
        let [users, cleared] = [list.call, clear.call].map(|it| it.bytes(image, usize::MAX).err());
        assert_eq!(users, cleared, "seed {seed}");
        let moved = move_up(image, usize::MAX).err();
        let outcome = match moved {
            Some(Refusal::Holders(_) | Refusal::Size) | None => {
                assert_eq!(users, None, "seed {seed}");
                "done"
            }
            refusal => {
                assert_eq!(users, refusal, "seed {seed}");
                "refused"
            }
        };
        seen.count("both", outcome);
    }
    println!("{seen:?}");
    seen.assert_least("both", &["done", "refused"], 1_000);
}

/// Calls of walks on an image and on the cleared one, also with broken sessions: all but verdicts is the
/// same, and so are verdicts for users who don't hold the bit.
#[test]
fn calls_stay() {
    let mut seen = CallTally::default();
    let mut kept: (Vec<u8>, Option<Vec<u8>>) = Default::default();
    for seed in 0..600 {
        each_call(Edition::One, seed, 60, |step| {
            if kept.0 != step.image {
                let cleared = clear_compaccess(step.image, usize::MAX).ok();
                kept = (step.image.to_vec(), cleared);
            }
            let Some(cleared) = &kept.1 else {
                return;
            };
            let mut session = step.lent;
            let answer = step.call.by_model(&accepted(cleared), &mut session);
            let holds = step.privileges.is_some_and(|bits| bits & COMPACCESS != 0);
            let is_lost = answer == Answer::Done(0) && step.answer == Answer::Done(1);
            if step.call.is_verdict() && holds && is_lost {
                seen.count(step.call.name(), "lost");
                return;
            }
            let wanted = (step.answer, step.session);
            assert_eq!((answer, session), wanted, "seed {seed}: {:?}", step.call);
            seen.add(step.call.name(), step.call.is_verdict(), answer);
        });
    }
    println!("{seen:?}");
    seen.assert_least("open", &["done", "4"], 100);
    seen.assert_least("set_label", &["done", "19", "8", "9", "10", "11"], 20);
    seen.assert_least("set_row_label", &["done", "19", "8", "9", "10"], 20);
    for verdict in ["may_read", "may_write"] {
        seen.assert_least(verdict, &["yes", "no", "19", "lost"], 20);
    }
}

/// Users without the bit keep all verdicts, and holders lose none but those that COMPACCESS alone gave.
#[test]
fn verdicts_by_compaccess_alone_are_lost() {
    let mut tally = VerdictTally::default();
    for seed in 0..600 {
        each_verdict(seed, Program::Model, clear, |verdict| {
            verdict.assert_right(&format!("seed {seed}"));
            tally.add(verdict);
        });
    }
    println!("{tally:?}");
    tally.assert_varied(300);
}
