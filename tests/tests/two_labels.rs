//! The compiled dominance and merging against the model, and dominance beside reading.
//!
//! A wrong answer names its seed; `BRAWNESK_SEED=<seed> cargo test --release` compares that seed alone.

use brawnesk_tests::builder::{random, sample, to_image, Edition, Sizes, Variant};
use brawnesk_tests::calls::{Pair, PairCall};
use brawnesk_tests::compare::{one_seed, seeds, CallTally, Checked};
use brawnesk_tests::ffi::{self, Answer, LABEL};
use brawnesk_tests::pairs::{by_hand, each_pair, each_record, merges, pair, triples};
use brawnesk_tests::pairs::{Held, PairTally, Program, ReadingTally};
use brawnesk_tests::rng::Rng;
use brawnesk_tests::vectors;
use brawnesk_tests::{in_each_edition, in_each_variant};
use std::hint::black_box;

/// Dominance, in each edition and profile.
const POLICIES: u64 = 1_500;
const PAIRS_EACH: usize = 40;

/// Merging.
const MERGED_PAIRS: u64 = 4_000;

/// Dominance beside reading, in each edition and profile.
const POLICIES_READ: u64 = 400;

in_each_variant! {
    the_library_agrees_with_the_model
    a_session_without_privileges_reads_what_its_label_dominates
    privileges_read_what_is_not_dominated
    every_bit_of_two_labels
    vectors_of_two_labels
}

in_each_edition! {
    answers_by_hand
    alignment_does_not_matter
}

/// Asks the library. The image, the labels and the letters have to stay as they are.
fn ask(call: &PairCall, image: &[u8], pair: &Pair, out: &mut [u8; LABEL]) -> Answer {
    let lent = (call.clone(), image.to_vec(), *pair);
    let (own_call, own_image, own_pair) = black_box(&lent);
    let answer = own_call.by_library(own_image, own_pair, black_box(out));
    let (own_call, own_image, own_pair) = black_box(&lent);
    assert!(own_call == call && own_pair == pair, "{call:?} of {pair:?}");
    assert!(own_image == image, "{call:?} of {pair:?}: image changed");
    answer
}

/// Asks both. A merge that is done writes every byte of the label, and nothing else writes one.
fn compare(call: &PairCall, lent: &Checked, pair: &Pair, fill: u8, case: &str) -> Answer {
    let (mut out, mut wanted) = ([fill; LABEL], [fill; LABEL]);
    let answer = ask(call, lent.image, pair, &mut out);
    let expected = call.by_model(&lent.by_model, pair, &mut wanted);
    assert_eq!(answer, expected, "{case}: {call:?} of {pair:?}");
    assert_eq!(out, wanted, "{case}: {call:?} of {pair:?}");
    answer
}

/// Dominance, strictly and not: pairs of labels under accepted and damaged images.
fn the_library_agrees_with_the_model(variant: Variant) {
    let mut tally = PairTally::default();
    for seed in seeds(0..POLICIES) {
        each_pair(variant, seed, PAIRS_EACH, |step| {
            let (call, pair) = (&step.call, &step.pair);
            let answer = ask(call, step.image, pair, &mut [0; LABEL]);
            assert_eq!(answer, step.answer, "seed {seed}: {call:?} of {pair:?}");
            tally.add(step);
        });
    }
    println!("{tally:?}");
    if one_seed().is_none() {
        tally.assert_varied(variant, 40_000, 50);
    }
}

/// By request R-3: a session without READ, FULL and COMPACCESS reads a row with a known tag exactly
/// if its label dominates the row's.
fn a_session_without_privileges_reads_what_its_label_dominates(variant: Variant) {
    let mut tally = ReadingTally::default();
    for seed in seeds(0..POLICIES_READ) {
        let case = (variant, seed);
        each_record(case, Held::Nothing, Program::Library, |it| {
            assert_eq!(it.reads, it.dominates, "seed {seed}: {it:?}");
            tally.add(it);
        });
    }
    println!("{tally:?}");
    if one_seed().is_none() {
        tally.assert_both(20_000);
    }
}

/// Privileges only add: what is dominated is read. And they do add: with COMPACCESS, which edition 2 and the
/// release profile have not, and with READ or FULL, rows are read that are not dominated, so that the request's
/// "no privileges" is needed.
fn privileges_read_what_is_not_dominated(variant: Variant) {
    for &held in Held::of(variant) {
        let mut tally = ReadingTally::default();
        for seed in seeds(0..POLICIES_READ / 2) {
            each_record((variant, seed), held, Program::Library, |it| {
                assert!(it.reads || !it.dominates, "seed {seed}: {held:?}, {it:?}");
                tally.add(it);
            });
        }
        println!("{held:?}: {tally:?}");
        let only_read = tally.times("only read");
        assert!(
            one_seed().is_some() || only_read >= 500,
            "{held:?}: {only_read}"
        );
    }
}

fn answers_by_hand(edition: Edition) {
    by_hand::check(edition, &|image, call, pair| {
        ask(call, image, pair, &mut [0; LABEL])
    });
}

#[test]
fn merging_agrees_with_the_model() {
    let mut tally = CallTally::default();
    let no_image = Checked::new(&[]);
    for seed in seeds(0..MERGED_PAIRS) {
        let case = format!("seed {seed}");
        let mut rng = Rng::new(seed);
        let pair = pair(&mut rng);
        for call in merges(&mut rng) {
            let answer = compare(&call, &no_image, &pair, rng.byte(), &case);
            tally.add(call.name(), call.is_verdict(), answer);
        }
    }
    println!("{tally:?}");
    if one_seed().is_none() {
        tally.assert_least("merge", &["done", "17"], 50_000);
    }
}

/// Every byte at each place of three letters, and every length from 0 to 5.
#[test]
fn every_letter() {
    let (pair, no_image) = (pair(&mut Rng::new(3)), Checked::new(&[]));
    for letters in triples() {
        for at in 0..3 {
            for byte in 0..=255 {
                let mut letters = letters.clone();
                letters[at] = byte;
                compare(
                    &PairCall::Merge(letters),
                    &no_image,
                    &pair,
                    byte,
                    "every letter",
                );
            }
        }
        for length in 0..=5 {
            let cycled: Vec<u8> = letters.iter().copied().cycle().take(length).collect();
            compare(
                &PairCall::Merge(cycled),
                &no_image,
                &pair,
                7,
                "every length",
            );
        }
    }
}

/// Every bit of two labels by itself: what is looked at, and what is not. In the sample few bits name
/// something; the other policy has all levels, compartments and groups that there can be.
fn every_bit_of_two_labels(variant: Variant) {
    let sizes = Sizes {
        users: 0,
        labels: 0,
        ..Sizes::full(variant)
    };
    let policies = [variant.sample(), random(sizes, &mut Rng::new(5))];
    let images = policies.map(|policy| to_image(&policy));
    let images = images.each_ref().map(|image| Checked::new(image));
    let no_image = Checked::new(&[]);
    let merges: Vec<PairCall> = triples().into_iter().map(PairCall::Merge).collect();
    for bit in 0..8 * LABEL {
        let mut label = [0; LABEL];
        label[bit / 8] = 1 << (bit % 8);
        for pair in [[label, [0; LABEL]], [[0; LABEL], label], [label, label]] {
            for image in &images {
                for call in PairCall::QUESTIONS {
                    compare(&call, image, &pair, 0xa5, "every bit");
                }
            }
            for call in &merges {
                compare(call, &no_image, &pair, 0xa5, "every bit");
            }
        }
    }
}

/// Images and labels may begin anywhere, and both labels may be the same bytes.
fn alignment_does_not_matter(edition: Edition) {
    let image = to_image(&sample().in_edition(edition));
    let [mut north, mut dock] = [[0; LABEL]; 2];
    north[16] = 1 << 1;
    dock[16] = 1 << 2;
    for shift in 0..8 {
        let image = [&vec![255; shift], image.as_slice()].concat();
        let over = [&vec![255; 7 - shift], north.as_slice()].concat();
        let under = [&vec![255; (shift + 3) % 8], dock.as_slice()].concat();
        let image = &image[shift..];
        let [over, under] = [&over, &under].map(|bytes| {
            let label = &bytes[bytes.len() - LABEL..];
            <&[u8; LABEL]>::try_from(label).expect("as many bytes as a label has")
        });
        assert_eq!(ffi::dominates(image, over, under), Answer::Done(1));
        assert_eq!(ffi::dominates(image, under, over), Answer::Done(0));
        assert_eq!(ffi::dominates(image, over, over), Answer::Done(1));
        assert_eq!(ffi::strictly_dominates(image, over, under), Answer::Done(1));
        assert_eq!(ffi::strictly_dominates(image, over, over), Answer::Done(0));
    }
}

fn vectors_of_two_labels(variant: Variant) {
    for case in vectors::two_labels(variant) {
        case.run(ask);
    }
}
