//! Texts with small letters whose answers follow from request R-9 by hand, for the library and for the model.

use crate::builder::{sample, to_image, Component, Edition, Label, Policy, Set};
use crate::ffi::{Answer, LABEL};

/// A program that reads a text under an image: its answer, and the label's bytes after it, which were `UNREAD`.
pub type Parse = dyn Fn(&[u8], &[u8]) -> (Answer, [u8; LABEL]);

pub const UNREAD: [u8; LABEL] = [0xa5; LABEL];

/// Capitals, digits and underscore: what names in images have.
const NAMES: &[u8; 37] = b"ABCDEFGHIJKLMNOPQRSTUVWXYZ0123456789_";

/// Which of `NAMES` the byte of a text is taken as.
fn taken_as(byte: u8) -> Option<usize> {
    let small = b"abcdefghijklmnopqrstuvwxyz";
    let place = |bytes: &[u8]| bytes.iter().position(|it| *it == byte);
    place(NAMES).or_else(|| place(small))
}

fn refused(number: u32, place: usize) -> (Answer, [u8; LABEL]) {
    let place = place as u32;
    (Answer::Refused { number, place }, UNREAD)
}

fn done(level: usize, compartments: Set, groups: Set) -> (Answer, [u8; LABEL]) {
    let label = Label {
        tag: 0,
        level: level as u8,
        compartments,
        groups,
    };
    (Answer::Done(0), label.to_bytes())
}

/// The sample's policy with other names, and no users and labels.
fn named(edition: Edition, classes: [Vec<String>; 3]) -> Policy {
    let [levels, compartments, groups] = classes.map(|names| {
        let numbered = names.into_iter().zip(1..);
        let component = |(name, number)| Component {
            name,
            number,
            parent: None,
        };
        numbered.map(component).collect()
    });
    Policy {
        levels,
        compartments,
        groups,
        labels: Vec::new(),
        users: Vec::new(),
        ..sample().in_edition(edition)
    }
}

/// Every byte at every place of a level, a compartment and a group. Marks between names are left out.
pub fn every_byte_of_a_name(edition: Edition, parse: &Parse) {
    let names = ["LEVEL_1", "AZ_09_Z", "M0_QS_B"];
    let classes = names.map(|name| vec![name.to_string()]);
    let image = to_image(&named(edition, classes));
    let text = names.join(":").into_bytes();
    let [mut read, mut wrong, mut unknown] = [0; 3];
    for at in (0..text.len()).filter(|&at| text[at] != b':') {
        for byte in (0..=255).filter(|byte| !b":,".contains(byte)) {
            let mut text = text.clone();
            let own = taken_as(text[at]);
            text[at] = byte;
            let (wanted, count) = match taken_as(byte) {
                None => (refused(5, 0), &mut wrong),
                taken if taken == own => (done(0, Set::of(0), Set::of(0)), &mut read),
                _ => (refused(6, at / 8 * 8), &mut unknown),
            };
            *count += 1;
            assert_eq!(parse(&image, &text), wanted, "byte {byte} at {at}");
        }
    }
    // 12 letters, and 9 digits and underscores. 63 bytes may stand in a name, and 191 may not.
    assert_eq!([read, wrong, unknown], [12 * 2 + 9, 21 * 191, 21 * 63 - 33]);
}

/// Names of one byte, of all bytes that names have: every byte as a level, a compartment and a group, and every two
/// bytes in a list.
pub fn every_two_letters(edition: Edition, parse: &Parse) {
    let class = |names: &[u8]| -> Vec<String> {
        let names = names.iter().map(|&byte| char::from(byte).to_string());
        names.collect()
    };
    let image = to_image(&named(
        edition,
        [class(&NAMES[..26]), class(NAMES), class(NAMES)],
    ));
    for byte in 0..=255 {
        let [level, compartment, group] = match taken_as(byte) {
            Some(at) if at < 26 => [
                done(at, Set::NONE, Set::NONE),
                done(0, Set::of(at), Set::NONE),
                done(0, Set::NONE, Set::of(at)),
            ],
            Some(at) => [
                refused(6, 0),
                done(0, Set::of(at), Set::NONE),
                done(0, Set::NONE, Set::of(at)),
            ],
            None => [refused(5, 0); 3],
        };
        assert_eq!(parse(&image, &[byte]), level, "level {byte}");
        assert_eq!(parse(&image, &[b'a', b':', byte]), compartment, "{byte}");
        assert_eq!(parse(&image, &[b'a', b':', b':', byte]), group, "{byte}");
    }
    two_in_a_list(&image, parse);
}

/// Two names of one byte in one list: a repeat, of the second, exactly if both are taken as one.
fn two_in_a_list(image: &[u8], parse: &Parse) {
    let in_text: Vec<u8> = (0..=255).filter(|it| taken_as(*it).is_some()).collect();
    let mut repeats = 0;
    for (&one, &two) in in_text
        .iter()
        .flat_map(|one| in_text.iter().map(move |it| (one, it)))
    {
        let places: Set = [one, two].into_iter().filter_map(taken_as).collect();
        let [compartments, groups] = match places.count() {
            1 => [refused(7, 4), refused(7, 5)],
            _ => [done(0, places, Set::NONE), done(0, Set::NONE, places)],
        };
        let first = [b'A', b':', one, b',', two];
        assert_eq!(parse(image, &first), compartments, "{first:?}");
        let second = [b'A', b':', b':', one, b',', two];
        assert_eq!(parse(image, &second), groups, "{second:?}");
        repeats += usize::from(places.count() == 1);
    }
    // Each letter in four ways; each digit, and underscore, in one.
    assert_eq!((in_text.len(), repeats), (63, 26 * 4 + 11));
}

/// A name of 30 bytes in small letters is found; one byte less or more, and it is unknown, at its own offset. So is one
/// whose length is the same mod 256.
pub fn names_of_30_and_31_bytes(edition: Edition, parse: &Parse) {
    let names = ["L", "C", "G"].map(|name| name.repeat(30));
    let image = to_image(&named(edition, names.each_ref().map(|it| vec![it.clone()])));
    let small = names.map(|name| name.to_ascii_lowercase());
    for (class, name) in small.iter().enumerate() {
        for length in [1, 29, 30, 31, 32, 60, 255, 256, 286] {
            let mut text = small.clone();
            text[class] = name[..1].repeat(length);
            let wanted = match length {
                30 => done(0, Set::of(0), Set::of(0)),
                _ => refused(6, class * 31),
            };
            let text = text.join(":");
            assert_eq!(parse(&image, text.as_bytes()), wanted, "{text}");
        }
    }
}
