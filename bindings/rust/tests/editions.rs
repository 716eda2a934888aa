//! The move up, and what is new under an image of edition 2.

mod common;

use brawnesk::{Class, Image, Label, Refusal, Verdict, LABEL, TEXT};
use common::images::{by_hand, crowd, image};
use common::{mara, sample, sample_with, seal, table};

/// The record of a component in edition 2. Its numeric form is its place, its name has 30 bytes.
fn component(class: u8, place: u16, parent: u16) -> Vec<u8> {
    let name = format!("{}{place:029}", [' ', 'L', 'C', 'G'][class as usize]);
    let (number, parent) = (place.to_le_bytes(), parent.to_le_bytes());
    [&[class, 30], name.as_bytes(), &number, &parent, &[0; 4]].concat()
}

/// An image of edition 2 with a level, 64 compartments and 256 groups, each under the one before. Tag 7
/// carries the last group. USER has the first as read group, and group 100 as default.
fn long_names() -> Box<[u8]> {
    let levels = [component(1, 0, 65_535)].into_iter();
    let compartments = (0..64).map(|place| component(2, place, 65_535));
    let groups = (0..256).map(|place| component(3, place, place.checked_sub(1).unwrap_or(65_535)));
    let mut label = vec![0; 48];
    (label[0], label[47]) = (7, 128);
    let mut user = vec![0; 200];
    user[..5].copy_from_slice(b"\x04USER");
    (user[72], user[72 + 2 * 32 + 100 / 8]) = (1, 1 << (100 % 8));
    let components = levels.chain(compartments).chain(groups).collect();
    image(
        &[2, 1, 64, 0, 1, 0, 1, 0, 0, 0, 0, 1],
        [
            (67, 12, components),
            (76, 10, vec![label]),
            (85, 2, vec![user]),
        ],
    )
}

/// The same components, labels and users in the layouts of edition 2. Later bytes stay.
#[test]
fn the_sample_is_moved_up() {
    let bytes = sample();
    let mut buffer = [b'.'; 2_050];
    assert_eq!(Image::new(&bytes).move_up(&mut buffer), Ok(2_048));
    assert_eq!(buffer[..2_048], *by_hand(&bytes));
    assert_eq!(buffer[2_048..], *b"..");
    assert_eq!(Image::new(&buffer[..2_048]).check(), Ok(()));
}

/// Opened under either image it is the same, and so are the verdicts on known tags and new labels.
#[test]
fn sessions_go_on() {
    let old = sample();
    let new = by_hand(&old);
    let (old, new) = (Image::new(&old), Image::new(&new));
    let mut session = mara(old);
    assert_eq!(new.open("MARA"), Ok(session.clone()));
    for text in ["CREW:KILN,GLAZE:NORTH", "VAULT:KILN:DOCK"] {
        assert_eq!(session.set_label(new, text), Ok(()), "{text}");
        assert_eq!(Ok(session.label()), old.parse(text), "{text}");
        for tag in [10, 20, 30] {
            assert_eq!(session.may_read(new, tag), session.may_read(old, tag));
            assert_eq!(session.may_write(new, tag), session.may_write(old, tag));
        }
    }
    let refused = session.set_label(new, "CREW:GLAZE:NORTH");
    assert_eq!(refused, Err(Refusal::RowLabelOutside));
}

/// 31 comes before what else is wrong with an image of edition 2, but after 1 and 2.
#[test]
fn edition_2_is_not_moved_up() {
    let mut bytes = by_hand(&sample());
    let mut buffer = [b'.'; 2_048];
    let mut refusal = |bytes: &[u8]| Image::new(bytes).move_up(&mut buffer).expect_err("refused");
    assert_eq!(refusal(&bytes), Refusal::ImageLayout);
    let fault = Refusal::ComponentRecord {
        block: 1,
        record: 0,
    };
    bytes[512 + 4 + 39] = 1;
    seal(&mut bytes[512..1_024]);
    assert_eq!(Image::new(&bytes).check(), Err(fault));
    assert_eq!(refusal(&bytes), Refusal::ImageLayout);
    bytes[600] ^= 1;
    assert_eq!(refusal(&bytes), Refusal::BlockCheck(1));
    assert_eq!(refusal(&bytes[1..]), Refusal::ImageLength);
    assert_eq!(buffer, [b'.'; 2_048]);
}

/// As many bytes as the new image has are enough.
#[test]
fn a_move_up_needs_room() {
    let bytes = sample();
    let mut buffer = [b'.'; 2_048];
    for room in [0, 512, 2_047] {
        let answer = Image::new(&bytes).move_up(&mut buffer[..room]);
        assert_eq!(answer, Err(Refusal::Room), "{room}");
    }
    assert_eq!(buffer, [b'.'; 2_048]);
    assert_eq!(Image::new(&bytes).move_up(&mut buffer), Ok(2_048));
}

/// 800 labels and 32 users go; one more of either does not, and that is told before the room.
#[test]
fn limits_of_a_move_up() {
    let mut buffer = vec![0; 65_536];
    for (labels, users, blocks) in [(0, 0, 2), (1, 1, 4), (11, 3, 6), (800, 32, 98)] {
        let bytes = crowd(labels, users);
        let length = Image::new(&bytes).move_up(&mut buffer);
        assert_eq!(length, Ok(512 * blocks), "{labels} labels, {users} users");
        assert_eq!(Image::new(&buffer[..512 * blocks]).check(), Ok(()));
    }
    for (labels, users) in [(801, 0), (0, 33), (801, 33), (1_680, 96)] {
        let bytes = crowd(labels, users);
        assert_eq!(Image::new(&bytes).check(), Ok(()));
        for room in [0, 65_536] {
            let answer = Image::new(&bytes).move_up(&mut buffer[..room]);
            assert_eq!(answer, Err(Refusal::MoveLimits), "{labels}, {users}");
        }
    }
}

/// Tag 0 and one that no label carries: READ and FULL see them under edition 1 alone.
#[test]
fn unknown_tags() {
    let verdict = |is_yes| Ok(if is_yes { Verdict::Yes } else { Verdict::No });
    for (privileges, read, write) in [(0, false, false), (1, true, false), (2, true, true)] {
        let old = sample_with(1_536 + 4 + 31, privileges);
        let new = by_hand(&old);
        let (old, new) = (Image::new(&old), Image::new(&new));
        let session = mara(old);
        for tag in [0, 99, u32::MAX] {
            assert_eq!(session.may_read(old, tag), verdict(read));
            assert_eq!(session.may_write(old, tag), verdict(write));
            assert_eq!(session.may_read(new, tag), verdict(false));
            assert_eq!(session.may_write(new, tag), verdict(false));
        }
    }
}

/// The sample table has 6 rows, of which those at places 2 and 5 have such tags.
#[test]
fn rows_of_unknown_tags() {
    let old = sample_with(1_536 + 4 + 31, 2);
    let new = by_hand(&old);
    let session = mara(Image::new(&old));
    for (bytes, count, is_seen) in [(old, 6, true), (new, 4, false)] {
        let (image, mut table) = (Image::new(&bytes), table());
        let mut buffer = vec![0; table.len()];
        let rows = session.read(image, &table, 16, &mut buffer);
        assert_eq!(rows.expect("done").len(), count);
        for place in [2, 5] {
            let payload = &table[16 * place + 4..][..12];
            let part = session.masked(image, &table, 16, place, b"hidden");
            assert_eq!(part, Ok(if is_seen { payload } else { b"hidden" }));
        }
        let mut update = |n| session.update(image, &mut table, 16, n, b"new payload!");
        assert_eq!(update(count - 1), Ok(()));
        assert_eq!(update(count), Err(Refusal::NoRow));
    }
}

/// Places up to 255 have names, text both ways and a place in sessions, verdicts and dominance.
#[test]
fn groups_past_the_64th() {
    let bytes = long_names();
    let image = Image::new(&bytes);
    assert_eq!(image.check(), Ok(()));
    let name = |place: u8| format!("G{place:029}");
    assert_eq!(image.name(Class::Group, 255), Ok(&name(255)[..]));
    let text = |place| format!("L{:029}::{}", 0, name(place));
    let label = |place| image.parse(text(place)).expect("a label");
    for place in [0, 63, 64, 127, 128, 255] {
        let mut expected = [0; LABEL];
        expected[16 + place as usize / 8] = 1 << (place % 8);
        assert_eq!(label(place), Label(expected));
        assert_eq!(
            image.print(label(place), &mut [0; TEXT]),
            Ok(&text(place)[..])
        );
        assert_eq!(label(place).dominates(image, label(255)), Ok(true));
        assert_eq!(label(255).dominates(image, label(place)), Ok(place == 255));
    }
    let session = image.open("USER").expect("a session");
    assert_eq!(session.label(), label(100));
    assert_eq!(session.may_read(image, 7), Ok(Verdict::Yes));
}

/// Merging is lent no image, so no place is lacking for it.
#[test]
fn merging_keeps_every_group() {
    let label = |byte: usize| {
        let mut label = [0; LABEL];
        label[byte] = 129;
        Label(label)
    };
    for byte in 16..LABEL {
        let none = Label([0; LABEL]);
        assert_eq!(label(byte).merge(none, "HUU"), Ok(label(byte)));
        assert_eq!(none.merge(label(byte), "HUU"), Ok(label(byte)));
        assert_eq!(label(byte).merge(label(byte), "HNI"), Ok(label(byte)));
        assert_eq!(label(byte).merge(none, "HNM"), Ok(label(byte)));
        assert_eq!(label(byte).merge(label(byte), "HNM"), Ok(none));
    }
}

/// All names of the longest image: 9,950 bytes, which read back.
#[test]
fn the_longest_text() {
    let bytes = long_names();
    let image = Image::new(&bytes);
    let mut label = Label([255; LABEL]);
    label.0[4] = 0;
    let mut buffer = [0; TEXT];
    let text = image.print(label, &mut buffer).expect("a text");
    assert_eq!(text.len(), 9_950);
    let Label(read) = image.parse(text).expect("a label");
    assert_eq!(read[8..], label.0[8..]);
    assert_eq!(image.print(label, &mut [0; 9_949]), Err(Refusal::Room));
}

/// A name over 30 bytes is well shaped and unknown; a text over the limit is not looked at.
#[test]
fn lengths_of_texts() {
    let old = sample();
    let new = by_hand(&old);
    for (bytes, most) in [(old, 4_096), (new, TEXT)] {
        let image = Image::new(&bytes);
        let answer = image.parse("A".repeat(most));
        assert_eq!(answer, Err(Refusal::UnknownName(0)));
        assert_eq!(image.parse("A".repeat(most + 1)), Err(Refusal::TextShape));
    }
}
