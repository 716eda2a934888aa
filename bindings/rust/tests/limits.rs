//! The constants hold for the compiled library: what is at a limit passes it, and what is over it does not.

mod common;

use brawnesk::*;
use common::{sample, sample_with};

/// Records of that size and number whose byte 0 is a class, of components, and nothing else.
fn records(size: usize, number: usize, byte: u8) -> Vec<u8> {
    let mut records = vec![0; size * number];
    records.chunks_mut(size).for_each(|record| record[0] = byte);
    records
}

/// Is that number of levels, compartments, groups, labels and users inside the limits? A count outside them is
/// 31, before any record is looked at; the first record, which is wrong, is 32.
fn counts_pass(edition: u8, [levels, compartments, groups, labels, users]: [usize; 5]) -> bool {
    let class = |class: Class, number| records(COMPONENT_SIZE, number, class as u8);
    let components = [
        class(Class::Level, levels),
        class(Class::Compartment, compartments),
        class(Class::Group, groups),
    ];
    let (label_size, user_size) = match edition {
        1 => (LABEL_SIZE_1, USER_SIZE_1),
        _ => (LABEL_SIZE_2, USER_SIZE_2),
    };
    let (labels, users) = (records(label_size, labels, 0), records(user_size, users, 0));
    let answer = write(edition, 0, &components.concat(), &labels, &users, &mut []);
    match answer {
        Err(Refusal::LentComponent(0)) => true,
        Err(Refusal::ImageLayout) => false,
        other => panic!("{other:?}"),
    }
}

#[test]
fn counts() {
    let limits = [
        (1, [LEVELS, COMPARTMENTS, GROUPS_1, LABELS_1, USERS_1]),
        (2, [LEVELS, COMPARTMENTS, GROUPS_2, LABELS_2, USERS_2]),
    ];
    for (edition, most) in limits {
        assert!(counts_pass(edition, most));
        for place in 0..most.len() {
            let mut over = most;
            over[place] += 1;
            assert!(
                !counts_pass(edition, over),
                "edition {edition}, count {place}"
            );
        }
    }
}

/// How many blocks an image of the most records has, by the constants; and that no record is cut or left out.
#[test]
fn blocks() {
    let components = |groups: usize| LEVELS + COMPARTMENTS + groups;
    let blocks = |components: usize, labels: usize, users: usize| {
        1 + components.div_ceil(COMPONENTS_IN_BLOCK) + labels + users
    };
    let (labels, users) = (
        LABELS_1.div_ceil(LABELS_IN_BLOCK_1),
        USERS_1.div_ceil(USERS_IN_BLOCK_1),
    );
    assert_eq!(blocks(components(GROUPS_1), labels, users), BLOCKS - 1);
    let (labels, users) = (
        LABELS_2.div_ceil(LABELS_IN_BLOCK_2),
        USERS_2.div_ceil(USERS_IN_BLOCK_2),
    );
    assert_eq!(blocks(components(GROUPS_2), labels, users), BLOCKS - 1);
    assert_eq!(blocks(components(GROUPS_1), labels, users) * BLOCK, MOVED);
    assert_eq!(IMAGE, BLOCK * BLOCKS);
    assert_eq!(MAP, LABELS_1.div_ceil(8));
    let checked = |length| Image::new(&vec![0; length]).check();
    assert_ne!(checked(IMAGE), Err(Refusal::ImageLength));
    assert_eq!(checked(IMAGE + BLOCK), Err(Refusal::ImageLength));
    assert_eq!(checked(IMAGE - 1), Err(Refusal::ImageLength));
}

/// The sample moved up: the same policy in edition 2.
fn second() -> Vec<u8> {
    let mut moved = vec![0; MOVED];
    let length = Image::new(&sample()).move_up(&mut moved).expect("moved");
    moved.truncate(length);
    moved
}

/// In each edition, records of these sizes are whole, and a byte more or less is 31.
#[test]
fn record_sizes() {
    let (first, second) = (sample(), second());
    for (bytes, label_size, user_size) in [
        (&first[..], LABEL_SIZE_1, USER_SIZE_1),
        (&second[..], LABEL_SIZE_2, USER_SIZE_2),
    ] {
        let image = Image::new(bytes);
        let mut buffers = [[0; IMAGE], [0; IMAGE], [0; IMAGE]];
        let [components, labels, users] = &mut buffers;
        assert_eq!(
            image.component_records(components).map(<[u8]>::len),
            Ok(9 * COMPONENT_SIZE)
        );
        assert_eq!(
            image.label_records(labels).map(<[u8]>::len),
            Ok(3 * label_size)
        );
        assert_eq!(image.user_records(users).map(<[u8]>::len), Ok(user_size));
        let wrote = |c: usize, l: usize, u: usize| {
            write(
                bytes[4],
                0,
                &components[..c],
                &labels[..l],
                &users[..u],
                &mut [0; IMAGE],
            )
        };
        let (c, l, u) = (9 * COMPONENT_SIZE, 3 * label_size, user_size);
        assert_eq!(wrote(c, l, u), Ok(bytes.len()));
        for (c, l, u) in [(c + 1, l, u), (c, l - 1, u), (c, l, u - 1)] {
            assert_eq!(wrote(c, l, u), Err(Refusal::ImageLayout));
        }
    }
}

#[test]
fn texts() {
    let (first, second) = (sample(), second());
    for (bytes, most) in [(&first[..], TEXT_1), (&second[..], TEXT)] {
        let image = Image::new(bytes);
        assert_eq!(image.parse(vec![b'A'; most]), Err(Refusal::UnknownName(0)));
        assert_eq!(image.parse(vec![b'A'; most + 1]), Err(Refusal::TextShape));
    }
}

#[test]
fn row_widths() {
    let (bytes, mut out) = (sample(), [0; ROW_MAX]);
    let image = Image::new(&bytes);
    let session = image.open("MARA").expect("a user");
    let mut row = [0; ROW_MAX + 1];
    row[..TAG].copy_from_slice(&30_u32.to_le_bytes());
    for width in [ROW_MIN, ROW_MAX] {
        let rows = session.read(image, &row[..width], width, &mut out);
        assert_eq!(rows.map(|rows| rows.len()), Ok(1));
    }
    for width in [ROW_MIN - 1, ROW_MAX + 1] {
        let refused = session.read(image, &row[..width], width, &mut out);
        assert_eq!(refused.expect_err("a width"), Refusal::TableShape);
    }
    assert_eq!(
        session.update(image, &mut row[..16], 16, 0, &[0; 16 - TAG]),
        Err(Refusal::RowNotWritable)
    );
}

/// A component's name, its numeric form and a label's tag at their limits and over them. The last group's name
/// and numeric form stand at the end of block 1, and the last label's tag in block 2.
#[test]
fn fields() {
    let group = BLOCK + 4 + 8 * COMPONENT_SIZE;
    let label = 2 * BLOCK + 4 + 2 * LABEL_SIZE_1;
    let with = |offset: usize, bytes: &[u8]| {
        let mut image = sample();
        image[offset..][..bytes.len()].copy_from_slice(bytes);
        common::seal(&mut image[offset / BLOCK * BLOCK..][..BLOCK]);
        Image::new(&image).check()
    };
    let named = |length: usize| {
        let name: Vec<u8> = std::iter::once(length as u8)
            .chain(vec![b'Z'; length])
            .collect();
        with(group + 1, &name)
    };
    let component = Err(Refusal::ComponentRecord {
        block: 1,
        record: 8,
    });
    assert_eq!(named(NAME), Ok(()));
    assert_eq!(named(NAME + 1), component);
    assert_eq!(with(group + 32, &NUMERIC_FORM.to_le_bytes()), Ok(()));
    assert_eq!(
        with(group + 32, &(NUMERIC_FORM + 1).to_le_bytes()),
        component
    );
    assert_eq!(with(label, &TAG_MAX.to_le_bytes()), Ok(()));
    let refused = Err(Refusal::LabelRecord {
        block: 2,
        record: 2,
    });
    assert_eq!(with(label, &(TAG_MAX + 1).to_le_bytes()), refused);
}

/// MARA's privileges, byte 31 of her record.
const PRIVILEGES: usize = 3 * BLOCK + 4 + 31;

/// With these privileges: what MARA may read and write of tag 20, and of tag 0, and how many hold COMPACCESS.
fn verdicts(privileges: u8) -> ([bool; 4], usize) {
    let bytes = sample_with(PRIVILEGES, privileges);
    let image = Image::new(&bytes);
    let session = image.open("MARA").expect("a user");
    let may_read = |tag| session.may_read(image, tag).expect("a verdict").is_yes();
    let may_write = |tag| session.may_write(image, tag).expect("a verdict").is_yes();
    let mut holders = [0; USERS_1];
    let holders = image.compaccess_users(&mut holders).expect("a list").len();
    let verdicts = [may_read(20), may_write(20), may_read(0), may_write(0)];
    (verdicts, holders)
}

#[test]
fn privileges() {
    assert_eq!(
        verdicts(Privilege::Read as u8),
        ([true, false, true, false], 0)
    );
    assert_eq!(verdicts(Privilege::Full as u8), ([true; 4], 0));
    assert_eq!(verdicts(Privilege::Compaccess as u8), ([false; 4], 1));
    let others = [
        Privilege::ProfileAccess,
        Privilege::Writeup,
        Privilege::Writedown,
        Privilege::Writeacross,
    ];
    let others = others.map(|privilege| privilege as u8);
    for privilege in others {
        assert_eq!(verdicts(privilege), ([false; 4], 0));
    }
    let all = 1 + 2 + 4 + others.iter().sum::<u8>();
    assert_eq!(all, 127);
    let refused = Image::new(&sample_with(PRIVILEGES, all + 1)).check();
    assert_eq!(
        refused,
        Err(Refusal::UserRecord {
            block: 3,
            record: 0
        })
    );
}
