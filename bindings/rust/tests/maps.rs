//! Maps made and judged, in both editions and both profiles.

mod common;

use brawnesk::{Image, Refusal, Session, MAP, SESSION};
use common::thirds::{cases, tag, user, Thirds};
use common::{faulty, mara, partners, sample, seal};

/// MARA's map: she may read the first and the third label.
const MARAS: [u8; 1] = [0b101];

/// At the front of the buffer; later bytes stay. As many bytes as the map has are enough.
#[test]
fn the_map_of_the_sample() {
    let bytes = sample();
    let image = Image::new(&bytes);
    let mut buffer = [b'.'; MAP];
    assert_eq!(mara(image).map(image, &mut buffer), Ok(&MARAS[..]));
    assert!(buffer[1..].iter().all(|&byte| byte == b'.'));
    assert_eq!(mara(image).map(image, &mut [0]), Ok(&MARAS[..]));
    assert_eq!(mara(image).map(image, &mut []), Err(Refusal::Room));
}

/// Without privileges, with READ, with FULL, and with one that changes no verdict.
#[test]
fn maps_of_many_labels() {
    for case in cases(&[0, 1, 2, 16]) {
        let (bytes, map) = (case.image(), case.map());
        let image = Image::new(&bytes);
        let session = user(image);
        let mut buffer = [b'.'; MAP];
        assert_eq!(session.map(image, &mut buffer), Ok(&map[..]), "{case:?}");
        assert!(buffer[map.len()..].iter().all(|&byte| byte == b'.'));
        assert_eq!(session.judge_map(image, &map), Ok(()), "{case:?}");
    }
}

/// Bit p mod 8 of byte p div 8 is the verdict on the tag of record p.
#[test]
fn bits_are_verdicts() {
    for case in cases(&[0, 1]) {
        let (bytes, mut buffer) = (case.image(), [0; MAP]);
        let image = Image::new(&bytes);
        let session = user(image);
        let map = session.map(image, &mut buffer).expect("a map");
        for place in (0..case.labels).step_by(7) {
            let is_set = map[usize::from(place / 8)] >> (place % 8) & 1 == 1;
            let verdict = session.may_read(image, tag(place)).expect("a verdict");
            assert_eq!(verdict.is_yes(), is_set, "{case:?}, place {place}");
        }
    }
}

/// One byte less is no room, and nothing is written.
#[test]
fn a_map_needs_room() {
    let case = Thirds {
        edition: 1,
        privileges: 0,
        labels: 1_680,
    };
    let bytes = case.image();
    let image = Image::new(&bytes);
    let mut buffer = [b'.'; MAP];
    for room in [0, 1, MAP - 1] {
        let map = user(image).map(image, &mut buffer[..room]);
        assert_eq!(map, Err(Refusal::Room), "{room}");
    }
    assert_eq!(buffer, [b'.'; MAP]);
    assert!(user(image).map(image, &mut buffer).is_ok());
}

/// Any other bit: some of the first, and all of the last two bytes, spare ones too.
#[test]
fn wrong_bits() {
    for case in cases(&[0, 1]) {
        let (bytes, mut map) = (case.image(), case.map());
        let image = Image::new(&bytes);
        let (session, bits) = (user(image), 8 * map.len());
        for bit in (0..bits).filter(|bit| bit % 61 == 0 || bit + 16 >= bits) {
            map[bit / 8] ^= 1 << (bit % 8);
            let refused = session.judge_map(image, &map);
            assert_eq!(refused, Err(Refusal::WrongMap), "{case:?}, bit {bit}");
            map[bit / 8] ^= 1 << (bit % 8);
        }
        assert_eq!(session.judge_map(image, &map), Ok(()), "{case:?}");
    }
}

/// Any other length, also where the bytes that are there, or those that follow, are as they should be.
#[test]
fn wrong_lengths() {
    for case in cases(&[0, 1]) {
        let (bytes, map) = (case.image(), case.map());
        let image = Image::new(&bytes);
        let session = user(image);
        let longer = [&map[..], &[0; MAP]].concat();
        let lengths = [
            0,
            1,
            map.len().saturating_sub(1),
            map.len() + 1,
            MAP,
            longer.len(),
        ];
        for length in lengths.into_iter().filter(|&length| length != map.len()) {
            let refused = session.judge_map(image, &longer[..length]);
            assert_eq!(refused, Err(Refusal::WrongMap), "{case:?}, {length}");
        }
    }
}

/// Every user of the release sample, in both editions.
#[test]
fn maps_of_the_release_profile() {
    let old = partners();
    let mut new = vec![0; 56_832];
    let length = Image::new(&old).move_up(&mut new).expect("a move up");
    for image in [&old, &new[..length]].map(Image::new) {
        for (name, map) in [
            ("ANNA", 0b011_1111),
            ("HUGO", 0b010_1011),
            ("MILA", 0b001_1010),
            ("NILS", 0b000_1010),
            ("OLGA", 0b111_1111),
        ] {
            let session = image.open(name).expect("a user of the sample");
            assert_eq!(session.map(image, &mut [0; MAP]), Ok(&[map][..]), "{name}");
            assert_eq!(session.judge_map(image, &[map]), Ok(()), "{name}");
        }
    }
}

/// A map is that of a session label: without KILN tag 10 is lost. Without GLAZE, which no label has, and with
/// another row label, the bits are the same.
#[test]
fn a_compartment_is_given_up() {
    let bytes = sample();
    let image = Image::new(&bytes);
    let mut session = mara(image);
    assert_eq!(session.set_label(image, "CREW:KILN:NORTH"), Ok(()));
    assert_eq!(session.judge_map(image, &MARAS), Ok(()));
    assert_eq!(session.set_row_label(image, "CREW::DOCK"), Ok(()));
    assert_eq!(session.judge_map(image, &MARAS), Ok(()));
    assert_eq!(session.set_label(image, "CREW::NORTH"), Ok(()));
    let refused = Err(Refusal::WrongMap);
    assert_eq!(session.judge_map(image, &MARAS), refused);
    assert_eq!(session.map(image, &mut [0; MAP]), Ok(&[0b100][..]));
    assert_eq!(mara(image).judge_map(image, &[0b100]), refused);
}

/// And of an image: tag 20 carries OPEN in the other one.
#[test]
fn a_label_record_is_changed() {
    let (old, mut new) = (sample(), sample());
    new[1_024 + 4 + 24..][4..24].fill(0);
    seal(&mut new[1_024..1_536]);
    let (old, new) = (Image::new(&old), Image::new(&new));
    let session = mara(old);
    assert_eq!(session.judge_map(old, &MARAS), Ok(()));
    let refused = session.judge_map(new, &MARAS);
    assert_eq!(refused, Err(Refusal::WrongMap));
    assert_eq!(session.judge_map(new, &[0b111]), Ok(()));
}

/// Whatever is wrong with the image, and then with the session, comes first. Nothing is written.
#[test]
fn images_and_sessions_come_first() {
    let (bytes, broken) = (sample(), Session([0; SESSION]));
    let lengths = [0, 511].map(|length| (bytes[..length].into(), Refusal::ImageLength));
    let rules = (bytes.clone(), Refusal::SessionRules);
    for (bytes, refusal) in lengths.into_iter().chain(faulty()).chain([rules]) {
        let (image, mut buffer) = (Image::new(&bytes), [b'.'; MAP]);
        assert_eq!(broken.map(image, &mut []), Err(refusal));
        assert_eq!(broken.map(image, &mut buffer), Err(refusal));
        assert_eq!(broken.judge_map(image, &[]), Err(refusal));
        assert_eq!(buffer, [b'.'; MAP]);
    }
}
