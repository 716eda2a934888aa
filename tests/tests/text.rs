//! The compiled `brawnesk_parse` and `brawnesk_print` against the model.
//!
//! A wrong answer names its seed; `BRAWNESK_SEED=<seed> cargo test --release` compares that seed
//! alone.

use brawnesk_tests::builder::{sample, to_image, Edition, Policy, Variant};
use brawnesk_tests::cases::Case;
use brawnesk_tests::compare::{expected, of_images, one_seed, seeds, Tally};
use brawnesk_tests::ffi::{self, Answer, LABEL};
use brawnesk_tests::model::{self, Label, Refusal};
use brawnesk_tests::rng::Rng;
use brawnesk_tests::spelling::has_small;
use brawnesk_tests::texts;
use brawnesk_tests::vectors::{self, Expected};
use brawnesk_tests::{in_each_edition, in_each_variant};
use std::ops::Range;

/// In each edition and profile.
const POLICIES: u64 = 2_500;
const TEXTS_EACH: usize = 20;

in_each_variant! {
    texts_are_read_alike
    labels_are_printed_alike
    every_length_of_a_buffer
    parse_of_print
    damaged_images
    vectors_of_label_text
}

in_each_edition! {
    lengths_of_texts
    alignment_does_not_matter
    every_byte
}

/// Shows the policy of each seed with its image, what else is random, and the seed by name.
fn each_policy(
    variant: Variant,
    all: Range<u64>,
    mut see: impl FnMut(&Policy, &[u8], &mut Rng, &str),
) {
    for seed in seeds(all) {
        let mut rng = Rng::new(seed);
        let policy = texts::policy(variant, &mut rng);
        let (image, case) = (to_image(&policy), format!("seed {seed}"));
        see(&policy, &image, &mut rng, &case);
    }
}

/// Asks that answers came at least so often, where all seeds were compared.
fn assert_least(tally: &Tally, least: &[(u32, usize)]) {
    println!("{tally:?}");
    if one_seed().is_none() {
        tally.assert_least(least);
    }
}

/// Parses by both. A refusal leaves the label's bytes as they were; otherwise all are written.
fn compare_parse(image: &[u8], text: &[u8], fill: u8, case: &str) -> Answer {
    let result = model::parse(image, text);
    let bytes = match &result {
        Ok(label) => label.to_bytes(),
        Err(_) => [fill; LABEL],
    };
    let mut label = [fill; LABEL];
    let answer = ffi::parse(image, text, &mut label);
    let shown = text.escape_ascii();
    let wanted = expected(result.map(|_| 0));
    assert_eq!(answer, wanted, "{case}: parse of {shown}");
    assert_eq!(label, bytes, "{case}: label of {shown}");
    answer
}

/// Prints by both, into `room` bytes. Only the text's own bytes change, and on a refusal none.
fn compare_print(image: &[u8], label: &[u8; LABEL], room: usize, case: &str) -> Answer {
    let result = model::print_within(image, &Label::read(label), room);
    let mut bytes = vec![b'#'; room];
    if let Ok(text) = &result {
        bytes[..text.len()].copy_from_slice(text);
    }
    let mut out = vec![b'#'; room];
    let answer = ffi::print(image, label, &mut out);
    let wanted = expected(result.map(|text| text.len() as u64));
    assert_eq!(answer, wanted, "{case}: print of {label:?} in {room}");
    assert_eq!(out, bytes, "{case}: text of {label:?} in {room}");
    answer
}

/// Texts with small letters are counted by themselves. So are those of over 4,096 bytes: in edition 1 all of
/// them are refused, and in edition 2 many are read.
fn texts_are_read_alike(variant: Variant) {
    let [mut tally, mut long, mut small] = [0; 3].map(|_| Tally::default());
    each_policy(variant, 0..POLICIES, |policy, image, rng, case| {
        for _ in 0..TEXTS_EACH {
            let text = texts::text(policy, rng);
            let answer = compare_parse(image, &text, rng.byte(), case);
            tally.add(answer);
            if text.len() > 4_096 {
                long.add(answer);
            }
            if has_small(&text) {
                small.add(answer);
            }
        }
    });
    assert_least(&small, &[(0, 4_000), (5, 3_000), (6, 2_000), (7, 600)]);
    match variant.edition {
        Edition::One => assert_least(&long, &[(5, 1_500)]),
        Edition::Two => assert_least(&long, &[(0, 100), (5, 1_500), (6, 500), (7, 250)]),
    }
    assert_least(&tally, &[(0, 10_000), (5, 10_000), (6, 6_000), (7, 1_500)]);
}

/// Labels that the policy has and labels with a place that it lacks, in buffers of any length.
fn labels_are_printed_alike(variant: Variant) {
    let longest = variant.edition.longest_text();
    let mut tally = Tally::default();
    each_policy(variant, 0..POLICIES, |policy, image, rng, case| {
        for _ in 0..6 {
            let past = rng.once_in(3);
            let label = match past {
                true => texts::label_past(policy, rng),
                false => texts::label(policy, rng),
            };
            let room = match rng.index(4) {
                0 => rng.range(0, 60),
                1 => rng.range(0, longest),
                _ => longest,
            };
            tally.add(compare_print(image, &label, room, case));
        }
    });
    assert_least(&tally, &[(0, 5_000), (13, 1_000), (18, 4_000)]);
}

/// Every length of a buffer from none to two more than is needed. A lacking component comes before
/// a lack of room.
fn every_length_of_a_buffer(variant: Variant) {
    let mut tally = Tally::default();
    each_policy(variant, 0..300, |policy, image, rng, case| {
        let label = texts::label(policy, rng);
        let needed = model::print(image, &Label::read(&label)).unwrap().len();
        if needed > 400 {
            return;
        }
        for room in 0..=needed + 2 {
            tally.add(compare_print(image, &label, room, case));
        }
        let past = texts::label_past(policy, rng);
        tally.add(compare_print(image, &past, 0, case));
    });
    assert_least(&tally, &[(0, 500), (13, 4_000), (18, 150)]);
}

/// What the library prints it reads as the same label.
fn parse_of_print(variant: Variant) {
    each_policy(variant, 0..POLICIES, |policy, image, rng, case| {
        let label = texts::label(policy, rng);
        assert_reads_back(image, &Label::read(&label).to_bytes(), case);
    });
    let (end, length) = match variant.edition {
        Edition::One => (24, 3_998),
        Edition::Two => (48, 9_950),
    };
    let mut whole = [255; LABEL];
    whole[..8].copy_from_slice(&[0, 0, 0, 0, 31, 0, 0, 0]);
    whole[end..].fill(0);
    let image = to_image(&texts::longest_names(variant));
    assert_eq!(assert_reads_back(&image, &whole, "the longest"), length);
}

/// Texts around the longest that each edition allows: of one name, which is unknown, and of a bad byte
/// at the end.
fn lengths_of_texts(edition: Edition) {
    let image = to_image(&sample().in_edition(edition));
    let mut tally = Tally::default();
    for longest in [4_096, 10_000] {
        for length in longest - 2..=longest + 2 {
            let mut text = b"CREW:".to_vec();
            text.resize(length, b'A');
            tally.add(compare_parse(&image, &text, 0xa5, "one name"));
            text[length - 1] = b',';
            tally.add(compare_parse(&image, &text, 0xa5, "no name"));
        }
    }
    let unknown = match edition {
        Edition::One => 3,
        Edition::Two => 8,
    };
    tally.assert_least(&[(6, unknown), (5, 20 - unknown)]);
}

/// Gives the length of the text.
fn assert_reads_back(image: &[u8], label: &[u8; LABEL], case: &str) -> usize {
    let mut out = [0; 10_000];
    let Answer::Done(length) = ffi::print(image, label, &mut out) else {
        panic!("{case}: print of {label:?} is refused");
    };
    let mut read = [255; LABEL];
    let answer = ffi::parse(image, &out[..length as usize], &mut read);
    assert_eq!(
        answer,
        Answer::Done(0),
        "{case}: parse of print of {label:?}"
    );
    assert_eq!(&read, label, "{case}");
    length as usize
}

/// An image that is refused is refused by both calls as by `brawnesk_check`, whatever the text, the
/// label and the buffer.
fn damaged_images(variant: Variant) {
    let mut tally = Tally::default();
    for seed in seeds(0..12_000) {
        let case = format!("seed {seed}");
        let image = Case::new(variant, seed).image;
        let mut rng = Rng::new(!seed);
        let policy = texts::policy(variant, &mut rng);
        let text = texts::text(&policy, &mut rng);
        let parsed = compare_parse(&image, &text, rng.byte(), &case);
        let label = texts::label_past(&policy, &mut rng);
        let printed = compare_print(&image, &label, rng.range(0, 40), &case);
        let checked = ffi::check(&image);
        if checked != Answer::Done(0) {
            assert_eq!((parsed, printed), (checked, checked), "{case}");
        }
        tally.add(parsed);
        tally.add(printed);
    }
    let numbers = of_images(variant.profile).iter();
    let numbers = numbers.map(|number| (number.parse().expect("a number"), 500));
    assert_least(&tally, &numbers.collect::<Vec<_>>());
}

fn vectors_of_label_text(variant: Variant) {
    for vector in vectors::label_text(variant) {
        let image = to_image(&vector.policy);
        let mut label = [0; LABEL];
        let answer = ffi::parse(&image, vector.text.as_bytes(), &mut label);
        match vector.expected {
            Expected::Printed(text) => {
                assert_eq!(answer, Answer::Done(0), "{}", vector.line);
                let mut out = vec![0; text.len()];
                let printed = ffi::print(&image, &label, &mut out);
                assert_eq!(printed, Answer::Done(text.len() as u64), "{}", vector.line);
                assert_eq!(out, text.as_bytes(), "{}", vector.line);
            }
            Expected::Refused(refused) => assert_eq!(answer, refused, "{}", vector.line),
        }
    }
}

/// A slice may begin anywhere.
fn alignment_does_not_matter(edition: Edition) {
    let image = to_image(&sample().in_edition(edition));
    for shift in 0..8 {
        let lent = [&vec![255; shift], image.as_slice()].concat();
        for text in ["CREW:KILN:DOCK,SOUTH", "CREW:KILN:DOCK,DOCK"] {
            let text = [&b"########"[shift..], text.as_bytes()].concat();
            let case = format!("shift {shift}");
            compare_parse(&lent[shift..], &text[8 - shift..], 7, &case);
        }
        let mut label = [0; LABEL];
        assert_eq!(
            ffi::parse(&lent[shift..], b"CREW:KILN:DOCK,SOUTH", &mut label),
            Answer::Done(0)
        );
        let mut out = [b'#'; 40];
        let printed = ffi::print(&lent[shift..], &label, &mut out[shift..]);
        assert_eq!(printed, Answer::Done(20));
        assert_eq!(&out[shift..][..21], b"CREW:KILN:DOCK,SOUTH#");
    }
}

/// Each byte at each of some offsets of a text, and each byte of a label that is not looked at.
fn every_byte(edition: Edition) {
    let image = to_image(&sample().in_edition(edition));
    for at in [0, 2, 4, 7, 9, 12, 14, 15] {
        for byte in 0..=255 {
            let mut text = b"CREW:KILN:DOCK".to_vec();
            text.resize(text.len().max(at + 1), b'A');
            text[at] = byte;
            compare_parse(&image, &text, 0xa5, "every byte");
        }
    }
    for at in 0..LABEL {
        for bit in 0..8 {
            let mut label = [0; LABEL];
            label[at] = 1 << bit;
            compare_print(&image, &label, 40, "every bit");
        }
    }
    let refused = compare_parse(&image, b"", 0, "empty");
    assert_eq!(refused, expected(Err(Refusal::Text)));
}
