//! Labels and sessions as a person reads them.

mod common;

use brawnesk::{Image, Label, Session, LABEL, MOVED, SESSION};
use common::sample;

/// Places of every byte of a set, and unused bytes only where one is not zero.
#[test]
fn a_label_is_shown_by_places() {
    let mut label = Label([0; LABEL]);
    let shown = |label: Label| format!("{label:?}");
    assert_eq!(
        shown(label),
        "Label { level: 0, compartments: {}, groups: {} }"
    );
    label.0[4] = 31;
    label.0[8] = 0b1000_0001;
    label.0[15] = 0b1000_0000;
    label.0[16] = 1;
    label.0[47] = 0b1000_0000;
    let places = "level: 31, compartments: {0, 7, 63}, groups: {0, 255}";
    assert_eq!(shown(label), format!("Label {{ {places} }}"));
    label.0[3] = 9;
    assert_eq!(
        shown(label),
        format!("Label {{ {places}, unused: [0, 0, 0, 9, 0, 0, 0] }}")
    );
}

const OPENED: &str = "label: Label { level: 1, compartments: {0, 1}, groups: {1} }, \
     row_label: Label { level: 1, compartments: {0}, groups: {2} }";

#[test]
fn a_session_is_shown_by_places() {
    let bytes = sample();
    let mut session = Image::new(&bytes).open("MARA").expect("a user");
    let shown = |session: &Session| format!("{session:?}");
    assert_eq!(shown(&session), format!("Session {{ user: 0, {OPENED} }}"));
    session.0[1] = 7;
    session.0[2] = 1;
    let unused = "second_user: 7, unused: [1, 0, 0, 0, 0, 0]";
    assert_eq!(
        shown(&session),
        format!("Session {{ user: 0, {OPENED}, {unused} }}")
    );
}

/// Two labels, or two sessions, that differ in any byte are shown otherwise.
#[test]
fn every_byte_is_shown() {
    let (label, session) = (Label([0; LABEL]), Session([0; SESSION]));
    for byte in 0..LABEL {
        let mut other = label;
        other.0[byte] = 1;
        assert_ne!(format!("{other:?}"), format!("{label:?}"), "byte {byte}");
    }
    for byte in 0..SESSION {
        let mut other = session.clone();
        other.0[byte] = 1;
        assert_ne!(format!("{other:?}"), format!("{session:?}"), "byte {byte}");
    }
}

/// The sample in both editions.
fn images() -> [Vec<u8>; 2] {
    let first = sample().to_vec();
    let mut second = vec![0; MOVED];
    let length = Image::new(&first).move_up(&mut second).expect("moved");
    second.truncate(length);
    [first, second]
}

#[test]
fn an_image_adds_names() {
    for bytes in images() {
        let image = Image::new(&bytes);
        let label = image.parse("vault:glaze:south,dock").expect("a label");
        let text = "VAULT:GLAZE:DOCK,SOUTH";
        assert_eq!(label.shown(image).to_string(), text);
        assert_eq!(format!("{:>24}", label.shown(image)), format!("  {text}"));
        assert_eq!(
            format!("{:?}", label.shown(image)),
            format!("Label {{ text: {text:?}, level: 2, compartments: {{1}}, groups: {{2, 3}} }}"),
        );
        let session = image.open("MARA").expect("a user");
        assert_eq!(
            session.shown(image).to_string(),
            "MARA at CREW:KILN,GLAZE:NORTH with row label CREW:KILN:DOCK",
        );
        let named = OPENED
            .replacen("Label {", r#"Label { text: "CREW:KILN,GLAZE:NORTH","#, 1)
            .replacen(
                "row_label: Label {",
                r#"row_label: Label { text: "CREW:KILN:DOCK","#,
                1,
            );
        let shown = format!("{:?}", session.shown(image));
        assert_eq!(
            shown,
            format!(r#"Session {{ user: 0, name: "MARA", {named} }}"#)
        );
    }
}

/// What an image cannot name is told by its refusal, and nothing panics.
#[test]
fn an_image_that_cannot_name() {
    let bytes = sample();
    let image = Image::new(&bytes);
    let (label, session) = (Label([255; LABEL]), Session([255; SESSION]));
    assert!(label.shown(image).to_string().starts_with("refused 18: "));
    assert!(
        format!("{:?}", label.shown(image)).starts_with("Label { text: NoComponent, level: 255, ")
    );
    assert!(session.shown(image).to_string().starts_with("refused 19: "));
    assert!(format!("{:?}", session.shown(image))
        .starts_with("Session { user: 255, name: SessionRules, label: "));
    let opened = image.open("MARA").expect("a user");
    for bytes in [&[][..], &bytes[..1_024], b"no image"] {
        let other = Image::new(bytes);
        let refused = other.check().expect_err("no image").to_string();
        assert_eq!(label.shown(other).to_string(), refused);
        assert_eq!(
            opened.shown(other).to_string(),
            format!("{refused} at {refused} with row label {refused}"),
        );
        assert!(format!("{:?}", opened.shown(other)).contains("groups: {1}"));
    }
}
