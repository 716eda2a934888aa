//! Small letters in label text (request R-9): they are taken as capitals there, and nowhere else.

mod common;

use brawnesk::{Image, Refusal};
use common::{mara, sample, sample_with};

/// A text in any letters names the same label, and a print has the image's.
#[test]
fn texts_in_any_letters() {
    let bytes = sample();
    let image = Image::new(&bytes);
    let label = image.parse("CREW:KILN:DOCK").expect("a label");
    for text in ["crew:kiln:dock", "Crew:Kiln:Dock", "cREW:KiLn:dOcK"] {
        assert_eq!(image.parse(text), Ok(label), "{text}");
    }
    assert_eq!(image.print(label, &mut [0; 20]), Ok("CREW:KILN:DOCK"));
}

/// The second name is told, in whatever letters both are.
#[test]
fn repeats_in_any_letters() {
    let bytes = sample();
    let image = Image::new(&bytes);
    for text in ["CREW:KILN,kiln", "crew:kiln,KILN", "Crew:Kiln,Kiln"] {
        assert_eq!(image.parse(text), Err(Refusal::RepeatedName(10)), "{text}");
    }
    assert_eq!(image.parse("crew:dock:dock"), Err(Refusal::UnknownName(5)));
    assert_eq!(image.parse("crew::"), Err(Refusal::TextShape));
}

/// The bytes before and after the letters are none.
#[test]
fn nothing_else_folds() {
    let bytes = sample();
    let image = Image::new(&bytes);
    for byte in ["@", "[", "`", "{", "\u{7f}", " "] {
        let text = format!("crew:kil{byte}");
        assert_eq!(image.parse(&text), Err(Refusal::TextShape), "{text}");
    }
}

#[test]
fn labels_are_set_in_any_letters() {
    let bytes = sample();
    let image = Image::new(&bytes);
    let mut session = mara(image);
    assert_eq!(session.set_label(image, "vault:kiln:dock"), Ok(()));
    assert_eq!(session.label(), image.parse("VAULT:KILN:DOCK").unwrap());
    assert_eq!(session.set_row_label(image, "Vault:kiln"), Ok(()));
    assert_eq!(session.row_label(), image.parse("VAULT:KILN").unwrap());
    let refused = session.set_label(image, "open");
    assert_eq!(refused, Err(Refusal::LevelNotAllowed));
}

/// User names are matched byte for byte, and images have capitals only: OPEN's name begins at byte 2 of the
/// first component's record, MARA's at byte 1 of the user's.
#[test]
fn users_and_images_have_capitals() {
    let bytes = sample();
    let image = Image::new(&bytes);
    for name in ["mara", "Mara", "MARa"] {
        assert_eq!(image.open(name), Err(Refusal::NoUser), "{name}");
    }
    let component = sample_with(512 + 4 + 2, b'o');
    let at = Refusal::ComponentRecord {
        block: 1,
        record: 0,
    };
    assert_eq!(Image::new(&component).parse("oPEN"), Err(at));
    let user = sample_with(1_536 + 4 + 1, b'm');
    let at = Refusal::UserRecord {
        block: 3,
        record: 0,
    };
    assert_eq!(Image::new(&user).open("mARA"), Err(at));
}
