//! Moves up of the sample co-operative with answers by hand.

use crate::builder::layout::{seal, BLOCK};
use crate::builder::{sample, to_image, Edition, Label, Policy, User};
use crate::ffi::Answer;
use crate::tables::by_hand::refused_images;

/// A program that is asked: what it is lent are the image and the buffer.
pub type Ask<'a> = &'a dyn Fn(&[u8], &mut [u8]) -> Answer;

const NONE: [u8; 2] = [255, 255];

/// Class, name, numeric form and parent.
const COMPONENTS: [(u8, &str, u16, [u8; 2]); 9] = [
    (1, "OPEN", 100, NONE),
    (1, "CREW", 200, NONE),
    (1, "VAULT", 300, NONE),
    (2, "KILN", 10, NONE),
    (2, "GLAZE", 20, NONE),
    (3, "WORKS", 1, NONE),
    (3, "NORTH", 2, [0, 0]),
    (3, "DOCK", 3, [1, 0]),
    (3, "SOUTH", 4, [0, 0]),
];

/// Tag, level, compartments and groups: CREW:KILN:DOCK, CREW::WORKS and OPEN.
const LABELS: [[u8; 4]; 3] = [[10, 1, 1, 4], [20, 1, 0, 1], [30, 0, 0, 0]];

/// MARA's sets, each by the byte of her record at which it begins.
const SETS: [(usize, u8); 8] = [
    (40, 3),
    (48, 1),
    (56, 3),
    (64, 1),
    (72, 2),
    (104, 4),
    (136, 2),
    (168, 4),
];

/// The moved sample, written out: records of 40 bytes in block 1, of 48 in block 2, of 200 in block 3.
fn moved() -> Vec<u8> {
    let mut image = vec![0; 4 * BLOCK];
    let mut put = |block: usize, at: usize, bytes: &[u8]| {
        image[block * BLOCK + at..][..bytes.len()].copy_from_slice(bytes);
    };
    put(0, 0, &[80, 0, 0, 0, 2, 3, 2, 0, 1, 0, 3, 0, 0, 0, 4, 0]);
    put(1, 0, &[67, 9, 1, 0]);
    for (place, (class, name, number, parent)) in COMPONENTS.into_iter().enumerate() {
        let at = 4 + place * 40;
        put(1, at, &[class, name.len() as u8]);
        put(1, at + 2, name.as_bytes());
        put(1, at + 32, &number.to_le_bytes());
        put(1, at + 34, &parent);
    }
    put(2, 0, &[76, 3, 2, 0]);
    for (place, label) in LABELS.into_iter().enumerate() {
        for (byte, value) in [0, 4, 8, 16].into_iter().zip(label) {
            put(2, 4 + place * 48 + byte, &[value]);
        }
    }
    put(3, 0, &[85, 1, 3, 0, 4]);
    put(3, 5, b"MARA");
    put(3, 4 + 32, &[2, 1, 1, 1]);
    for (byte, set) in SETS {
        put(3, 4 + byte, &[set]);
    }
    (0..4).for_each(|block| seal(&mut image, block));
    image
}

/// The sample in edition 1 with so many labels and users, U00 and so on.
pub fn sized(labels: usize, users: usize) -> Policy {
    let mut policy = sample();
    let (label, user) = (policy.labels[0].clone(), policy.users[0].clone());
    let labels = (0..labels).map(|place| Label {
        tag: 1 + place as u32,
        ..label.clone()
    });
    policy.labels = labels.collect();
    let users = (0..users).map(|place| User {
        name: format!("U{place:02}"),
        ..user.clone()
    });
    policy.users = users.collect();
    policy
}

fn refused(number: u32, place: u32) -> Answer {
    Answer::Refused { number, place }
}

/// A refusal, with every length of a buffer up to some bytes and with long ones, leaves the buffer alone.
pub fn expect_refused(ask: Ask, image: &[u8], answer: Answer) {
    for room in (0..4).chain([511, 512, 2_047, 2_048, 2_049, 65_536]) {
        let mut buffer = vec![0xa5; room];
        assert_eq!(ask(image, &mut buffer), answer, "{room} bytes");
        assert!(buffer.iter().all(|&byte| byte == 0xa5), "{room} bytes");
    }
}

/// All cases.
pub fn check(ask: Ask) {
    rooms(ask);
    refusals_of_images(ask);
    limits(ask);
    holders(ask);
}

/// 13 in a buffer that is too short; later bytes stay in a longer one.
fn rooms(ask: Ask) {
    let (image, moved) = (to_image(&sample()), moved());
    for room in (0..20).chain([512, 1_536, 2_046, 2_047, 2_048, 2_049, 2_100, 65_536]) {
        let mut buffer = vec![0xa5; room];
        let answer = ask(&image, &mut buffer);
        if room < 2_048 {
            assert_eq!(answer, refused(13, 0), "{room} bytes");
            assert_eq!(buffer, vec![0xa5; room]);
            continue;
        }
        assert_eq!(answer, Answer::Done(2_048), "{room} bytes");
        assert!(buffer[..2_048] == moved, "{room} bytes");
        assert!(buffer[2_048..].iter().all(|&byte| byte == 0xa5));
    }
}

/// An image of edition 1 is refused as everywhere. One of edition 2 is refused by 1 and 2, and else by 31
/// whatever is wrong with it, if anything is.
pub fn refusals_of_images(ask: Ask) {
    for (image, answer) in refused_images(Edition::One) {
        expect_refused(ask, &image, answer);
    }
    for (image, answer) in refused_images(Edition::Two) {
        let answer = match answer {
            Answer::Refused { number: 1 | 2, .. } => answer,
            _ => refused(31, 0),
        };
        expect_refused(ask, &image, answer);
    }
    let whole = to_image(&sample().in_edition(Edition::Two));
    expect_refused(ask, &whole, refused(31, 0));
}

/// 37 for over 800 labels or over 32 users, after what is wrong with the image and before 13.
fn limits(ask: Ask) {
    for (labels, users, number) in [
        (801, 1, 37),
        (1, 33, 37),
        (801, 33, 37),
        (1_680, 96, 37),
        (800, 33, 37),
        (801, 32, 37),
    ] {
        expect_refused(ask, &to_image(&sized(labels, users)), refused(number, 0));
    }
    // Header, 9 components, 80 blocks of labels and 16 of users.
    let image = to_image(&sized(800, 32));
    let mut buffer = vec![0xa5; 98 * BLOCK];
    let short = &mut buffer[..98 * BLOCK - 1];
    assert_eq!(ask(&image, short), refused(13, 0));
    assert_eq!(ask(&image, &mut buffer), Answer::Done(98 * 512));
    let mut broken = sized(801, 33);
    broken.labels[800].level = 3;
    let place = (2 + 800 / 21) * 65_536 + 800 % 21;
    expect_refused(ask, &to_image(&broken), refused(33, place));
}

/// 36 tells how many users hold COMPACCESS, after 37 and before 13.
fn holders(ask: Ask) {
    for (labels, users, holders) in [
        (1, 1, &[0][..]),
        (1, 7, &[6]),
        (1, 7, &[0, 2, 3]),
        (0, 32, &[31]),
        (800, 32, &[0, 1, 2, 30, 31]),
    ] {
        let image = to_image(&sized(labels, users).held_by(holders));
        expect_refused(ask, &image, refused(36, holders.len() as u32));
    }
    let all: Vec<usize> = (0..96).collect();
    let image = to_image(&sized(3, 32).held_by(&all));
    expect_refused(ask, &image, refused(36, 32));
    for (labels, users) in [(801, 1), (0, 33), (1_680, 96)] {
        let image = to_image(&sized(labels, users).held_by(&all));
        expect_refused(ask, &image, refused(37, 0));
    }
    let mut broken = sized(30, 32).held_by(&all);
    broken.labels[21].level = 3;
    expect_refused(ask, &to_image(&broken), refused(33, 3 * 65_536));
}
