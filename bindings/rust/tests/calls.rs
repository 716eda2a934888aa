//! Every wrapper but those of rows, on the sample image. P1 to P16 are cases of document 01.

mod common;

use brawnesk::{Class, Image, Label, Refusal, Session, Verdict, LABEL, SESSION};
use common::{faulty, mara, sample};

#[test]
fn the_sample_is_accepted() {
    assert_eq!(Image::new(&sample()).check(), Ok(()));
}

/// As the gate's damaged images: blocks are lacking, a byte is wrong, the length is no whole blocks.
#[test]
fn damaged_images_are_refused() {
    let mut bytes = sample();
    assert_eq!(
        Image::new(&bytes[..1_024]).check(),
        Err(Refusal::ImageLayout)
    );
    assert_eq!(
        Image::new(&bytes[..1_000]).check(),
        Err(Refusal::ImageLength)
    );
    bytes[600] = b'X';
    assert_eq!(Image::new(&bytes).check(), Err(Refusal::BlockCheck(1)));
    bytes[0] = 0;
    assert_eq!(Image::new(&bytes).check(), Err(Refusal::BlockCheck(0)));
}

/// Also one without any byte. Nothing else that a call refuses comes before.
#[test]
fn every_call_checks_the_image() {
    let bytes = sample();
    let mut session = mara(Image::new(&bytes));
    let (label, lacking) = (session.label(), Label([255; LABEL]));
    let lengths = [0, 511].map(|length| (bytes[..length].into(), Refusal::ImageLength));
    for (bytes, refusal) in lengths.into_iter().chain(faulty()) {
        let image = Image::new(&bytes);
        assert_eq!(image.check(), Err(refusal));
        assert_eq!(image.name(Class::Level, 99), Err(refusal));
        assert_eq!(image.parse(""), Err(refusal));
        assert_eq!(image.print(label, &mut []), Err(refusal));
        assert_eq!(image.open("NOBODY"), Err(refusal));
        assert_eq!(session.set_label(image, ""), Err(refusal));
        assert_eq!(session.set_row_label(image, ""), Err(refusal));
        assert_eq!(session.may_read(image, 10), Err(refusal));
        assert_eq!(session.may_write(image, 10), Err(refusal));
        assert_eq!(label.dominates(image, lacking), Err(refusal));
        assert_eq!(label.strictly_dominates(image, lacking), Err(refusal));
        assert_eq!(image.move_up(&mut []), Err(refusal));
    }
    assert_eq!(session, mara(Image::new(&bytes)));
}

/// Each name is the part of the image that holds it.
#[test]
fn names_are_parts_of_the_image() {
    let bytes = sample();
    let image = Image::new(&bytes);
    let names = [
        (Class::Level, &["OPEN", "CREW", "VAULT"][..]),
        (Class::Compartment, &["KILN", "GLAZE"]),
        (Class::Group, &["WORKS", "NORTH", "DOCK", "SOUTH"]),
    ];
    let mut record = 512 + 4;
    for (class, names) in names {
        for (place, expected) in (0..).zip(names) {
            let name = image.name(class, place).expect("a name");
            assert_eq!(name, *expected);
            assert_eq!(name.as_ptr(), bytes[record + 2..].as_ptr());
            record += 40;
        }
        for place in [names.len() as u8, 255] {
            assert_eq!(image.name(class, place), Err(Refusal::NoComponent));
        }
    }
}

/// P15: "VAULT:GLAZE,KILN" prints as VAULT:KILN,GLAZE. Later bytes of the buffer stay.
#[test]
fn p15_a_label_is_printed() {
    let bytes = sample();
    let image = Image::new(&bytes);
    let label = image.parse("VAULT:GLAZE,KILN").expect("a label");
    let mut buffer = [b'.'; 20];
    assert_eq!(image.print(label, &mut buffer), Ok("VAULT:KILN,GLAZE"));
    assert_eq!(buffer, *b"VAULT:KILN,GLAZE....");
    assert_eq!(image.print(label, &mut buffer[..15]), Err(Refusal::Room));
    assert_eq!(image.print(label, &mut []), Err(Refusal::Room));
    assert_eq!(buffer, *b"VAULT:KILN,GLAZE....");
}

/// P16: "CREW::" is refused 5; and the other reasons, with their offsets.
#[test]
fn p16_texts_are_refused() {
    let bytes = sample();
    let image = Image::new(&bytes);
    assert_eq!(image.parse("CREW::"), Err(Refusal::TextShape));
    assert_eq!(image.parse(""), Err(Refusal::TextShape));
    assert_eq!(image.parse([255]), Err(Refusal::TextShape));
    assert_eq!(image.parse("CREW:DOCK:DOCK"), Err(Refusal::UnknownName(5)));
    assert_eq!(
        image.parse("CREW:KILN,KILN"),
        Err(Refusal::RepeatedName(10))
    );
    assert_eq!(image.parse("BOSS"), Err(Refusal::UnknownName(0)));
}

/// The label of OPEN, but for a byte that names a level, a compartment or a group that the sample lacks.
fn lacking() -> [Label; 5] {
    [(4, 3), (8, 4), (16, 16), (24, 1), (47, 128)].map(|(byte, value)| {
        let mut label = [0; LABEL];
        label[byte] = value;
        Label(label)
    })
}

#[test]
fn labels_of_another_policy_are_not_printed() {
    let bytes = sample();
    let image = Image::new(&bytes);
    for label in lacking() {
        let printed = image.print(label, &mut [0; 64]).map(str::to_string);
        assert_eq!(printed, Err(Refusal::NoComponent), "{label:?}");
    }
    assert_eq!(image.print(Label([0; LABEL]), &mut [0; 64]), Ok("OPEN"));
}

/// Neither as the first label nor as the second.
#[test]
fn labels_of_another_policy_are_not_compared() {
    let bytes = sample();
    let image = Image::new(&bytes);
    let open = Label([0; LABEL]);
    for label in lacking() {
        for (one, two) in [(label, open), (open, label), (label, label)] {
            let refused = Err(Refusal::NoComponent);
            assert_eq!(one.dominates(image, two), refused, "{label:?}");
            assert_eq!(one.strictly_dominates(image, two), refused, "{label:?}");
        }
    }
    assert_eq!(open.dominates(image, open), Ok(true));
}

#[test]
fn sessions_open_with_the_defaults() {
    let bytes = sample();
    let image = Image::new(&bytes);
    let session = mara(image);
    assert_eq!(Ok(session.label()), image.parse("CREW:KILN,GLAZE:NORTH"));
    assert_eq!(Ok(session.row_label()), image.parse("CREW:KILN:DOCK"));
    for name in ["", "mara", "MAR", "MARAS", "NOBODY"] {
        assert_eq!(image.open(name), Err(Refusal::NoUser));
    }
}

/// Tags 10, 20 and 30 carry P1, P2 and P6; P9 is of tag 0.
#[test]
fn p1_p2_p6_p9_verdicts() {
    let bytes = sample();
    let image = Image::new(&bytes);
    let session = mara(image);
    let (yes, no) = (Ok(Verdict::Yes), Ok(Verdict::No));
    for (tag, read, write) in [(10, yes, yes), (20, no, no), (30, yes, no), (0, no, no)] {
        assert_eq!(session.may_read(image, tag), read, "tag {tag}");
        assert_eq!(session.may_write(image, tag), write, "tag {tag}");
    }
    assert!(Verdict::Yes.is_yes() && !Verdict::No.is_yes());
}

/// P10: accepted, and the row label is as it was.
#[test]
fn p10_a_new_session_label() {
    let bytes = sample();
    let image = Image::new(&bytes);
    let (mut session, opened) = (mara(image), mara(image));
    assert_eq!(session.set_label(image, "VAULT:KILN:DOCK"), Ok(()));
    assert_eq!(Ok(session.label()), image.parse("VAULT:KILN:DOCK"));
    assert_eq!(session.row_label(), opened.row_label());
}

/// P11 to P13, and the refusals of the text. The session is as it was.
#[test]
fn p11_p12_p13_refused_session_labels() {
    let bytes = sample();
    let image = Image::new(&bytes);
    let mut session = mara(image);
    let cases = [
        ("CREW:GLAZE:NORTH", Refusal::RowLabelOutside),
        ("OPEN", Refusal::LevelNotAllowed),
        ("CREW::SOUTH", Refusal::GroupsNotAllowed),
        ("CREW::", Refusal::TextShape),
        ("CREW::NORTH,BAY", Refusal::UnknownName(12)),
        ("CREW::NORTH,NORTH", Refusal::RepeatedName(12)),
    ];
    for (text, refusal) in cases {
        assert_eq!(session.set_label(image, text), Err(refusal), "{text}");
        assert_eq!(session, mara(image), "{text}");
    }
}

#[test]
fn row_labels() {
    let bytes = sample();
    let image = Image::new(&bytes);
    let mut session = mara(image);
    let cases = [
        ("VAULT:GLAZE:SOUTH", Refusal::LevelNotAllowed),
        ("CREW:GLAZE:SOUTH", Refusal::CompartmentsNotAllowed),
        ("CREW:KILN:SOUTH", Refusal::GroupsNotAllowed),
    ];
    for (text, refusal) in cases {
        assert_eq!(session.set_row_label(image, text), Err(refusal), "{text}");
        assert_eq!(session, mara(image), "{text}");
    }
    assert_eq!(session.set_row_label(image, "CREW"), Ok(()));
    assert_eq!(Ok(session.row_label()), image.parse("CREW"));
    assert_eq!(session.label(), mara(image).label());
}

/// A session that no call gave is refused before the rest is looked at.
#[test]
fn broken_sessions_are_refused() {
    let bytes = sample();
    let image = Image::new(&bytes);
    let broken = Err(Refusal::SessionRules);
    let mut session = Session([0; SESSION]);
    assert_eq!(session.set_label(image, ""), broken);
    assert_eq!(session.set_row_label(image, ""), broken);
    for byte in [0, 1, 12, 16, 24, 32, 103] {
        let Session(mut bytes) = mara(image);
        bytes[byte] ^= 128;
        let session = Session(bytes);
        assert_eq!(session.may_read(image, 10).map(|_| ()), broken, "{byte}");
        assert_eq!(session.may_write(image, 10).map(|_| ()), broken, "{byte}");
    }
}

/// Does the first label dominate the second, and does it so strictly?
#[test]
fn dominance() {
    let bytes = sample();
    let image = Image::new(&bytes);
    let label = |text: &str| image.parse(text).expect("a label");
    let cases = [
        ("CREW:KILN:NORTH", "CREW:KILN:NORTH", true, false),
        // The level, and the compartments.
        ("VAULT::NORTH", "CREW::NORTH", true, true),
        ("CREW::NORTH", "VAULT::NORTH", false, false),
        ("CREW:KILN,GLAZE", "CREW:GLAZE", true, true),
        ("CREW:GLAZE", "CREW:KILN,GLAZE", false, false),
        ("VAULT:KILN", "CREW:GLAZE", false, false),
        // DOCK is below NORTH, and NORTH below WORKS; SOUTH is not below NORTH.
        ("CREW::NORTH", "CREW::DOCK", true, true),
        ("CREW::WORKS", "CREW::DOCK", true, true),
        ("CREW::DOCK", "CREW::NORTH", false, false),
        ("CREW::SOUTH", "CREW::DOCK", false, false),
        // A label without groups.
        ("CREW::NORTH", "CREW", true, true),
        ("CREW", "CREW::NORTH", false, false),
        // One group is enough, so two labels may strictly dominate each other.
        ("CREW::DOCK", "CREW::DOCK,SOUTH", true, true),
        ("CREW::DOCK,SOUTH", "CREW::DOCK", true, true),
        // Dominance is not transitive.
        ("CREW::NORTH", "CREW::DOCK,SOUTH", true, true),
        ("CREW::DOCK,SOUTH", "CREW::SOUTH", true, true),
        ("CREW::NORTH", "CREW::SOUTH", false, false),
    ];
    for (one, two, dominates, strictly) in cases {
        let names = format!("{one} and {two}");
        let (one, two) = (label(one), label(two));
        assert_eq!(one.dominates(image, two), Ok(dominates), "{names}");
        assert_eq!(one.strictly_dominates(image, two), Ok(strictly), "{names}");
    }
}

/// MARA has no privileges: her session may read a known tag exactly if its label dominates the tag's.
#[test]
fn what_is_dominated_is_read() {
    let bytes = sample();
    let image = Image::new(&bytes);
    let mut session = mara(image);
    assert_eq!(session.set_row_label(image, "CREW"), Ok(()));
    let labels = [
        "CREW",
        "VAULT:KILN",
        "CREW:KILN:DOCK",
        "CREW:KILN:NORTH",
        "CREW:GLAZE:NORTH",
        "VAULT:KILN,GLAZE:NORTH,DOCK",
    ];
    for text in labels {
        assert_eq!(session.set_label(image, text), Ok(()), "{text}");
        for (tag, row) in [(10, "CREW:KILN:DOCK"), (20, "CREW::WORKS"), (30, "OPEN")] {
            let row = image.parse(row).expect("a label");
            let read = session.may_read(image, tag).map(Verdict::is_yes);
            let dominated = session.label().dominates(image, row);
            assert_eq!(read, dominated, "{text}, tag {tag}");
        }
    }
}

/// P14: by LMU they give CREW:KILN:NORTH,SOUTH.
#[test]
fn p14_merging() {
    let bytes = sample();
    let image = Image::new(&bytes);
    let label = |text: &str| image.parse(text).expect("a label");
    let (one, two) = (label("CREW:KILN:NORTH"), label("VAULT:GLAZE:SOUTH"));
    assert_eq!(one.merge(two, "LMU"), Ok(label("CREW:KILN:NORTH,SOUTH")));
    assert_eq!(two.merge(one, "HMN"), Ok(label("VAULT:GLAZE")));
    for letters in ["", "LM", "LMUU", "UMU", "lmu"] {
        assert_eq!(one.merge(two, letters), Err(Refusal::MergeLetters));
    }
}
