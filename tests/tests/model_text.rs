//! The model of label text by itself.

use brawnesk_tests::builder::{sample, to_image, Edition, Variant};
use brawnesk_tests::compare::{expected, Tally};
use brawnesk_tests::model::{parse, print, print_within, Label, Refusal};
use brawnesk_tests::rng::Rng;
use brawnesk_tests::texts;
use brawnesk_tests::vectors::{self, Expected};
use brawnesk_tests::{in_each_edition, in_each_variant};

in_each_edition! {
    cases_of_the_document
    lengths_of_texts
}

in_each_variant! {
    vectors_of_label_text
    what_is_printed_is_read_as_the_same_label
    the_longest_text
    labels_past_the_policy
    texts_are_varied
}

/// P15 and P16.
fn cases_of_the_document(edition: Edition) {
    let image = to_image(&sample().in_edition(edition));
    let label = parse(&image, b"VAULT:GLAZE,KILN").expect("P15 is a label");
    assert_eq!(print(&image, &label).unwrap(), b"VAULT:KILN,GLAZE");
    assert_eq!(parse(&image, b"CREW::"), Err(Refusal::Text));
}

fn vectors_of_label_text(variant: Variant) {
    for vector in vectors::label_text(variant) {
        let image = to_image(&vector.policy);
        let label = parse(&image, vector.text.as_bytes());
        match vector.expected {
            Expected::Printed(text) => {
                let printed = label.and_then(|label| print(&image, &label));
                assert_eq!(printed, Ok(text.as_bytes().to_vec()), "{}", vector.line);
            }
            Expected::Refused(refused) => {
                assert_eq!(expected(label.map(|_| 0)), refused, "{}", vector.line);
            }
        }
    }
}

fn what_is_printed_is_read_as_the_same_label(variant: Variant) {
    for seed in 0..4_000 {
        let mut rng = Rng::new(seed);
        let policy = texts::policy(variant, &mut rng);
        let image = to_image(&policy);
        let label = Label::read(&texts::label(&policy, &mut rng));
        let text = print(&image, &label).expect("the policy has all that the label names");
        assert_eq!(parse(&image, &text), Ok(label), "seed {seed}");
    }
}

/// No label is too long to be read back.
fn the_longest_text(variant: Variant) {
    let image = to_image(&texts::longest_names(variant));
    let (groups, length) = match variant.edition {
        Edition::One => (64, 3_998),
        Edition::Two => (256, 9_950),
    };
    let label = Label {
        level: 31,
        compartments: (0..64).collect(),
        groups: (0..groups).collect(),
    };
    let text = print(&image, &label).unwrap();
    assert_eq!(text.len(), length);
    assert_eq!(parse(&image, &text).as_ref(), Ok(&label));
    assert_eq!(print_within(&image, &label, length - 1), Err(Refusal::Room));
    assert_eq!(print_within(&image, &label, length), Ok(text));
}

/// A text of 4,096 bytes is judged by its names, a longer one is refused whatever it holds. In edition 2
/// it may have 10,000 bytes.
fn lengths_of_texts(edition: Edition) {
    let longest = match edition {
        Edition::One => 4_096,
        Edition::Two => 10_000,
    };
    let image = to_image(&sample().in_edition(edition));
    for length in [4_095, 4_096, 4_097, 9_999, 10_000, 10_001, 65_536] {
        let mut text = b"CREW:".to_vec();
        text.resize(length, b'A');
        let refusal = match length <= longest {
            true => Refusal::NameUnknown(5),
            false => Refusal::Text,
        };
        assert_eq!(parse(&image, &text), Err(refusal), "{length} bytes");
    }
}

fn labels_past_the_policy(variant: Variant) {
    for seed in 0..2_000 {
        let mut rng = Rng::new(seed);
        let policy = texts::policy(variant, &mut rng);
        let label = Label::read(&texts::label_past(&policy, &mut rng));
        let printed = print(&to_image(&policy), &label);
        assert_eq!(printed, Err(Refusal::Component), "seed {seed}");
    }
}

#[test]
fn bytes_of_a_label() {
    let label = Label {
        level: 7,
        compartments: [0, 9, 63].into(),
        groups: [1, 64, 255].into(),
    };
    let mut bytes = label.to_bytes();
    let set = [
        (4, 7),
        (8, 1),
        (9, 2),
        (15, 128),
        (16, 2),
        (24, 1),
        (47, 128),
    ];
    for (at, byte) in set {
        assert_eq!(bytes[at], byte, "byte {at}");
    }
    assert_eq!(bytes.iter().filter(|&&byte| byte != 0).count(), set.len());
    bytes[..4].fill(255);
    bytes[5..8].fill(255);
    assert_eq!(Label::read(&bytes), label);
}

/// The texts for comparing are of all kinds.
fn texts_are_varied(variant: Variant) {
    let mut tally = Tally::default();
    for seed in 0..400 {
        let mut rng = Rng::new(seed);
        let policy = texts::policy(variant, &mut rng);
        let image = to_image(&policy);
        for _ in 0..20 {
            let text = texts::text(&policy, &mut rng);
            tally.add(expected(parse(&image, &text).map(|_| 0)));
        }
    }
    println!("{tally:?}");
    tally.assert_least(&[(0, 1_500), (5, 1_500), (6, 1_000), (7, 200)]);
}
