//! Small letters in label text (request R-9): the compiled calls on a text and on the same text in other letters.
//!
//! A wrong answer names its seed; `BRAWNESK_SEED=<seed> cargo test --release` compares that seed alone.

use brawnesk_tests::builder::{to_image, Component, Edition, Policy, Variant};
use brawnesk_tests::calls::Call;
use brawnesk_tests::compare::{expected, one_seed, seeds, CallTally, Tally};
use brawnesk_tests::ffi::{self, Answer, LABEL};
use brawnesk_tests::model::{self, Label};
use brawnesk_tests::rng::Rng;
use brawnesk_tests::spelling::{by_hand, others};
use brawnesk_tests::texts;
use brawnesk_tests::walk::each_call;
use brawnesk_tests::{in_each_edition, in_each_variant};
use std::hint::black_box;

/// In each edition and profile.
const POLICIES: u64 = 1_000;
const TEXTS_EACH: usize = 10;
const CALLS_EACH: usize = 60;

in_each_edition! {
    every_byte_of_a_name
    every_two_letters
    names_of_30_and_31_bytes
}

in_each_variant! {
    texts_in_other_letters_are_read_alike
    every_name_in_other_letters
    repeats_in_other_letters
    the_images_spelling_is_printed
    labels_are_set_alike
}

/// The library's answer to a text, and the label's bytes after it. The text stays as it was.
fn parsed(image: &[u8], text: &[u8]) -> (Answer, [u8; LABEL]) {
    let mut label = by_hand::UNREAD;
    let lent = text.to_vec();
    let answer = ffi::parse(image, black_box(&lent), &mut label);
    assert!(*black_box(&lent) == *text, "{}", text.escape_ascii());
    (answer, label)
}

/// What the library has to give where the model reads a label or refuses the text.
fn wanted(image: &[u8], text: &[u8]) -> (Answer, [u8; LABEL]) {
    let label = model::parse(image, text);
    let bytes = label.as_ref().map_or(by_hand::UNREAD, Label::to_bytes);
    (expected(label.map(|_| 0)), bytes)
}

/// A policy and its image.
struct Case {
    seed: u64,
    policy: Policy,
    image: Vec<u8>,
}

impl Case {
    /// The case of a seed, and what else is random.
    fn new(variant: Variant, seed: u64) -> (Case, Rng) {
        let mut rng = Rng::new(seed);
        let policy = texts::policy(variant, &mut rng);
        let image = to_image(&policy);
        let case = Case {
            seed,
            policy,
            image,
        };
        (case, rng)
    }

    /// Asks that the library gives that answer and that label.
    fn assert_reads(&self, text: &[u8], wanted: (Answer, [u8; LABEL])) {
        let (seed, shown) = (self.seed, text.escape_ascii());
        assert_eq!(parsed(&self.image, text), wanted, "seed {seed}: {shown}");
    }

    /// Asks the same of the text and of the text in other letters. Tells how many others there were.
    fn assert_others(&self, text: &[u8], wanted: (Answer, [u8; LABEL]), rng: &mut Rng) -> usize {
        self.assert_reads(text, wanted);
        let others = others(text, rng);
        let all = others.iter();
        all.for_each(|other| self.assert_reads(other, wanted));
        others.len()
    }

    /// Asks that the library prints the label as that text.
    fn assert_prints(&self, label: &[u8; LABEL], text: &[u8]) {
        let mut out = [0; 10_000];
        let answer = ffi::print(&self.image, label, &mut out);
        let (seed, shown) = (self.seed, text.escape_ascii());
        let length = text.len();
        assert_eq!(answer, Answer::Done(length as u64), "seed {seed}: {shown}");
        assert_eq!(&out[..length], text, "seed {seed}: {shown}");
    }
}

/// Asks that answers came at least so often, where all seeds were compared.
fn assert_least(tally: &Tally, least: &[(u32, usize)]) {
    println!("{tally:?}");
    if one_seed().is_none() {
        tally.assert_least(least);
    }
}

/// The same of one number.
fn assert_times(times: usize, least: usize) {
    println!("{times} times");
    assert!(one_seed().is_some() || times >= least, "{times} times");
}

fn every_byte_of_a_name(edition: Edition) {
    by_hand::every_byte_of_a_name(edition, &parsed);
}

fn every_two_letters(edition: Edition) {
    by_hand::every_two_letters(edition, &parsed);
}

fn names_of_30_and_31_bytes(edition: Edition) {
    by_hand::names_of_30_and_31_bytes(edition, &parsed);
}

/// Any text, right or wrong, short or long: number and offset, or the label, are the model's in all letters. Texts that
/// have other letters are counted, and those of over 4,096 bytes by themselves too.
fn texts_in_other_letters_are_read_alike(variant: Variant) {
    let [mut tally, mut long] = [Tally::default(), Tally::default()];
    for seed in seeds(0..POLICIES) {
        let (case, mut rng) = Case::new(variant, seed);
        for _ in 0..TEXTS_EACH {
            let text = texts::text(&case.policy, &mut rng);
            let wanted = wanted(&case.image, &text);
            if case.assert_others(&text, wanted, &mut rng) == 0 {
                continue;
            }
            tally.add(wanted.0);
            if text.len() > 4_096 {
                long.add(wanted.0);
            }
        }
    }
    assert_least(&tally, &[(0, 2_000), (5, 2_000), (6, 1_500), (7, 300)]);
    match variant.edition {
        Edition::One => assert_least(&long, &[(5, 150)]),
        Edition::Two => assert_least(&long, &[(0, 5), (5, 150), (6, 50), (7, 25)]),
    }
}

/// For each component a text with its name alone as a level, or after a level as a compartment or a group.
fn texts_of_one(policy: &Policy, rng: &mut Rng) -> Vec<String> {
    let level = &rng.pick(&policy.levels).name;
    let mut texts = Vec::new();
    for (before, class) in [
        (String::new(), &policy.levels),
        (format!("{level}:"), &policy.compartments),
        (format!("{level}::"), &policy.groups),
    ] {
        texts.extend(class.iter().map(|it| format!("{before}{}", it.name)));
    }
    texts
}

/// Each name is read as its place, and printed as the image has it.
fn every_name_in_other_letters(variant: Variant) {
    let mut times = 0;
    for seed in seeds(0..POLICIES / 2) {
        let (case, mut rng) = Case::new(variant, seed);
        for text in texts_of_one(&case.policy, &mut rng) {
            let wanted = wanted(&case.image, text.as_bytes());
            assert_eq!(wanted.0, Answer::Done(0), "seed {seed}: {text}");
            times += case.assert_others(text.as_bytes(), wanted, &mut rng);
            case.assert_prints(&wanted.1, text.as_bytes());
        }
    }
    assert_times(times, 20_000);
}

/// A list in which a name comes twice, after what stands before it; and the offset of the second.
fn with_repeat(before: &str, class: &[Component], rng: &mut Rng) -> Option<(Vec<u8>, usize)> {
    let mut names: Vec<&str> = class.iter().map(|it| it.name.as_str()).collect();
    rng.shuffle(&mut names);
    let first = rng.place(0, names.len())?;
    let second = rng.range(first + 1, names.len());
    names.insert(second, names[first]);
    let offset = before.len() + names[..second].join(",").len() + 1;
    let text = format!("{before}{}", names.join(","));
    Some((text.into_bytes(), offset))
}

/// 7 at the second, in whatever letters both are: also a small one after capitals, and the other way round.
fn repeats_in_other_letters(variant: Variant) {
    let mut times = 0;
    for seed in seeds(0..POLICIES) {
        let (case, mut rng) = Case::new(variant, seed);
        let policy = &case.policy;
        let level = &rng.pick(&policy.levels).name;
        for (class, marks) in [(&policy.compartments, ":"), (&policy.groups, "::")] {
            let before = format!("{level}{marks}");
            let Some((text, offset)) = with_repeat(&before, class, &mut rng) else {
                continue;
            };
            let (number, place) = (7, offset as u32);
            let wanted = (Answer::Refused { number, place }, by_hand::UNREAD);
            let (first, second) = text.split_at(offset);
            let later = [first, &second.to_ascii_lowercase()].concat();
            let earlier = [&first.to_ascii_lowercase(), second].concat();
            case.assert_reads(&later, wanted);
            case.assert_reads(&earlier, wanted);
            times += case.assert_others(&text, wanted, &mut rng);
        }
    }
    assert_times(times, 4_000);
}

/// A label's text in other letters is printed as the image has its names, and that text reads back to the same label.
fn the_images_spelling_is_printed(variant: Variant) {
    let mut times = 0;
    for seed in seeds(0..POLICIES) {
        let (case, mut rng) = Case::new(variant, seed);
        let label = Label::read(&texts::label(&case.policy, &mut rng));
        let text = model::print(&case.image, &label).expect("the policy has what it names");
        let wanted = (Answer::Done(0), label.to_bytes());
        times += case.assert_others(&text, wanted, &mut rng);
        case.assert_prints(&wanted.1, &text);
    }
    assert_times(times, 2_500);
}

/// A label change in other letters; none for another call.
fn in_other_letters(call: &Call, rng: &mut Rng) -> Vec<Call> {
    let again: fn(Vec<u8>) -> Call = match call {
        Call::SetLabel(_) => Call::SetLabel,
        _ => Call::SetRowLabel,
    };
    let text = call.text().unwrap_or_default();
    others(text, rng).into_iter().map(again).collect()
}

/// A label change gives the same answer and leaves the same session in all letters.
fn labels_are_set_alike(variant: Variant) {
    let mut tally = CallTally::default();
    for seed in seeds(0..POLICIES) {
        let mut rng = Rng::new(!seed);
        each_call(variant, seed, CALLS_EACH, |step| {
            for call in in_other_letters(&step.call, &mut rng) {
                let mut session = step.lent;
                let answer = call.by_library(step.image, &mut session);
                let wanted = (step.answer, step.session);
                assert_eq!((answer, session), wanted, "seed {seed}: {call:?}");
                tally.add(call.name(), false, answer);
            }
        });
    }
    println!("{tally:?}");
    if one_seed().is_none() {
        let both = ["done", "19", "5", "6", "7", "8", "9", "10"];
        tally.assert_least("set_label", &both, 200);
        tally.assert_least("set_label", &["11"], 200);
        tally.assert_least("set_row_label", &both, 200);
    }
}
