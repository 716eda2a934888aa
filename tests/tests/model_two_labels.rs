//! The model of two labels by itself, and what it is compared on.

use brawnesk_tests::builder::{Edition, Label, Policy, Profile, Set, Variant};
use brawnesk_tests::calls::PairCall;
use brawnesk_tests::compare::CallTally;
use brawnesk_tests::ffi::{Answer, LABEL};
use brawnesk_tests::model::accepted;
use brawnesk_tests::pairs::{by_hand, each_pair, each_record, merges, pair};
use brawnesk_tests::pairs::{Held, PairTally, Program, ReadingTally};
use brawnesk_tests::rng::Rng;
use brawnesk_tests::vectors;
use brawnesk_tests::{in_each_edition, in_each_variant};

in_each_edition! {
    answers_by_hand
    wrong_rules_are_found
}

in_each_variant! {
    vectors_of_two_labels
    pairs_are_varied
    a_session_without_privileges_reads_what_its_label_dominates
    labels_differ_in_each_part_alone
}

fn vectors_of_two_labels(variant: Variant) {
    let cases = vectors::two_labels(variant);
    let least = match variant.profile {
        Profile::Tree => 70,
        Profile::Release => 20,
    };
    assert!(cases.len() >= least, "{} cases", cases.len());
    for case in cases {
        case.run(|call, image, pair, out| call.by_model(&accepted(image), pair, out));
    }
}

fn answers_by_hand(edition: Edition) {
    by_hand::check(edition, &|image, call, pair| {
        call.by_model(&accepted(image), pair, &mut [0; LABEL])
    });
}

/// The pairs for comparing go everywhere.
fn pairs_are_varied(variant: Variant) {
    let mut tally = PairTally::default();
    for seed in 0..1_500 {
        each_pair(variant, seed, 40, |step| tally.add(step));
    }
    println!("{tally:?}");
    tally.assert_varied(variant, 40_000, 50);
}

#[test]
fn merges_are_varied() {
    let mut tally = CallTally::default();
    let no_image = accepted(&[]);
    for seed in 0..2_000 {
        let mut rng = Rng::new(seed);
        let pair = pair(&mut rng);
        for call in merges(&mut rng) {
            let answer = call.by_model(&no_image, &pair, &mut [0; LABEL]);
            tally.add(call.name(), call.is_verdict(), answer);
        }
    }
    println!("{tally:?}");
    tally.assert_least("merge", &["done", "17"], 20_000);
}

/// The two sides of request R-3 are written apart from each other in the model too.
fn a_session_without_privileges_reads_what_its_label_dominates(variant: Variant) {
    let mut tally = ReadingTally::default();
    for seed in 0..400 {
        each_record((variant, seed), Held::Nothing, Program::Model, |it| {
            assert_eq!(it.reads, it.dominates, "seed {seed}: {it:?}");
            tally.add(it);
        });
    }
    println!("{tally:?}");
    tally.assert_both(20_000);
}

/// Whether label 1 dominates label 2, where the policy has both.
type Rule = fn(&Policy, &Label, &Label) -> bool;

fn level(one: &Label, two: &Label) -> bool {
    two.level <= one.level
}

fn compartments(one: &Label, two: &Label) -> bool {
    two.compartments.is_in(one.compartments)
}

fn groups(policy: &Policy, one: &Label, two: &Label) -> bool {
    two.groups.is_empty() || policy.below(one.groups).meets(two.groups)
}

/// By the builder's own below.
fn right(policy: &Policy, one: &Label, two: &Label) -> bool {
    level(one, two) && compartments(one, two) && groups(policy, one, two)
}

/// The rule with another test of groups.
fn by(is_passed: bool, one: &Label, two: &Label) -> bool {
    level(one, two) && compartments(one, two) && is_passed
}

/// The rule with only so many steps from a group up to its ancestors.
fn within(steps: usize, policy: &Policy, one: &Label, two: &Label) -> bool {
    let mut found = one.groups;
    for _ in 0..steps {
        let is_child = |place: &usize| {
            let parent = policy.groups[*place].parent;
            parent.is_some_and(|parent| found.has(parent.into()))
        };
        let children: Set = (0..policy.groups.len()).filter(is_child).collect();
        found |= children;
    }
    by(two.groups.is_empty() || found.meets(two.groups), one, two)
}

/// Rules that a program might go by and that are wrong.
const WRONG: [(&str, Rule); 13] = [
    ("groups as listed", |it, one, two| within(0, it, one, two)),
    ("one parent up", |it, one, two| within(1, it, one, two)),
    ("two parents up", |it, one, two| within(2, it, one, two)),
    ("groups the other way round", |it, one, two| {
        let met = it.below(two.groups).meets(one.groups);
        by(two.groups.is_empty() || met, one, two)
    }),
    ("a group below both", |it, one, two| {
        let met = it.below(two.groups).meets(it.below(one.groups));
        by(two.groups.is_empty() || met, one, two)
    }),
    ("all groups", |it, one, two| {
        by(two.groups.is_in(it.below(one.groups)), one, two)
    }),
    ("no groups in label 2 is no match", |it, one, two| {
        right(it, one, two) && !two.groups.is_empty()
    }),
    ("no groups in label 1 is a match", |it, one, two| {
        by(groups(it, one, two) || one.groups.is_empty(), one, two)
    }),
    ("a higher level", |it, one, two| {
        right(it, one, two) && two.level < one.level
    }),
    ("no level test", |it, one, two| {
        compartments(one, two) && groups(it, one, two)
    }),
    ("no compartment test", |it, one, two| {
        level(one, two) && groups(it, one, two)
    }),
    ("one compartment is enough", |it, one, two| {
        let shared = one.compartments.meets(two.compartments) || two.compartments.is_empty();
        level(one, two) && shared && groups(it, one, two)
    }),
    ("the labels exchanged", |it, one, two| right(it, two, one)),
];

/// Each wrong rule gives another answer for many of the pairs for comparing, and the right one for none.
fn wrong_rules_are_found(edition: Edition) {
    let mut found = [0; WRONG.len()];
    for seed in 0..400 {
        each_pair(edition, seed, 40, |step| {
            let (Answer::Done(answer), PairCall::Dominates) = (step.answer, &step.call) else {
                return;
            };
            let [one, two] = step.labels;
            let told = |rule: Rule| u64::from(rule(step.policy, one, two));
            assert_eq!(told(right), answer, "seed {seed}: {one:?}, {two:?}");
            for ((_, rule), found) in WRONG.iter().zip(&mut found) {
                *found += usize::from(told(*rule) != answer);
            }
        });
    }
    let found: Vec<_> = WRONG.iter().map(|(name, _)| name).zip(found).collect();
    println!("{found:?}");
    assert!(found.iter().all(|(_, times)| *times >= 50), "{found:?}");
}

/// Labels of which one strictly dominates the other often differ in one part alone, so that a program
/// which doesn't compare that part is found.
fn labels_differ_in_each_part_alone(variant: Variant) {
    let mut alone = [0; 3];
    for seed in 0..400 {
        each_pair(variant, seed, 40, |step| {
            let [one, two] = step.labels;
            let differ = [
                one.level != two.level,
                one.compartments != two.compartments,
                one.groups != two.groups,
            ];
            let is_strict = step.call == PairCall::StrictlyDominates;
            if is_strict && step.answer == Answer::Done(1) {
                let only = differ.iter().filter(|it| **it).count() == 1;
                for (alone, differs) in alone.iter_mut().zip(differ) {
                    *alone += usize::from(only && differs);
                }
            }
        });
    }
    println!("level, compartments, groups: {alone:?}");
    assert!(alone.iter().all(|times| *times >= 50), "{alone:?}");
}
