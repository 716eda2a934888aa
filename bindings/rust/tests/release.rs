//! The release profile: rows that are marked with the partner stores that they may go to. The sample has the
//! groups HARBOUR, MILL and ORCHARD. Its tag 10 goes to HARBOUR, 20 to HARBOUR and MILL, 30 to none and 40 to all;
//! 50 is OPEN and goes to MILL, 60 is of STOCK and goes to HARBOUR and ORCHARD, 70 is SEALED and goes to all.

mod common;

use brawnesk::{Class, Image, Refusal, Session};
use common::{partners, partners_table, seal};

const TAGS: [u32; 7] = [10, 20, 30, 40, 50, 60, 70];

fn reads(image: Image, session: &Session) -> Vec<u32> {
    let is_yes = |tag: &u32| session.may_read(image, *tag).expect("a verdict").is_yes();
    TAGS.into_iter().filter(is_yes).collect()
}

fn writes(image: Image, session: &Session) -> Vec<u32> {
    let is_yes = |tag: &u32| session.may_write(image, *tag).expect("a verdict").is_yes();
    TAGS.into_iter().filter(is_yes).collect()
}

/// The sample with another byte, and the check of its block right again.
fn changed(offset: usize, byte: u8) -> Box<[u8]> {
    let mut image = partners();
    image[offset] = byte;
    seal(&mut image[offset / 512 * 512..][..512]);
    image
}

/// ANNA has no read groups, HUGO HARBOUR, MILA MILL, NILS both; OLGA has ORCHARD, and READ.
#[test]
fn who_reads_and_who_writes() {
    let bytes = partners();
    let image = Image::new(&bytes);
    assert_eq!(image.name(Class::Group, 2), Ok("ORCHARD"));
    let cases: [(&str, &[u32], &[u32]); 5] = [
        ("ANNA", &[10, 20, 30, 40, 50, 60], &[10, 20, 30, 40, 60]),
        ("HUGO", &[10, 20, 40, 60], &[10, 20, 40]),
        ("MILA", &[20, 40, 50], &[20, 40]),
        ("NILS", &[20, 40], &[20, 40]),
        ("OLGA", &TAGS, &[60]),
    ];
    for (name, read, written) in cases {
        let session = image.open(name).expect("a user of the sample");
        assert_eq!(reads(image, &session), read, "{name}");
        assert_eq!(writes(image, &session), written, "{name}");
    }
}

#[test]
fn rows_of_the_table() {
    let bytes = partners();
    let (image, mut table) = (Image::new(&bytes), partners_table());
    let session = image.open("NILS").expect("a user of the sample");
    let mut buffer = vec![0; table.len()];
    let rows = session.read(image, &table, 16, &mut buffer);
    let texts: Vec<&[u8]> = rows.expect("rows").map(|row| &row[4..]).collect();
    assert_eq!(texts, [b"both of them", b"all partners"]);
    let update = |n, table: &mut [u8]| session.update(image, table, 16, n, b"new payload!");
    assert_eq!(update(1, &mut table), Ok(()));
    assert_eq!(table[4 * 16 + 4..][..12], *b"new payload!");
    assert_eq!(update(2, &mut table), Err(Refusal::NoRow));
    let hidden = session.masked(image, &table, 16, 0, b"hidden");
    assert_eq!(hidden, Ok(&b"hidden"[..]));
}

/// HUGO adds MILL: the row label first. Rows that don't go to MILL are lost.
#[test]
fn a_wider_session_loses_rows() {
    let bytes = partners();
    let image = Image::new(&bytes);
    let mut session = image.open("HUGO").expect("a user of the sample");
    let wider = "TRADE:PRICES,STOCK:HARBOUR,MILL";
    let refused = session.set_label(image, wider);
    assert_eq!(refused, Err(Refusal::RowLabelOutside));
    let row = session.set_row_label(image, "TRADE:PRICES:HARBOUR,MILL");
    assert_eq!(row, Ok(()));
    assert_eq!(session.set_label(image, wider), Ok(()));
    assert_eq!(reads(image, &session), [20, 40]);
}

/// HARBOUR, which HUGO reads, is lacking in a session label; then in a row label, as one of the session's.
#[test]
fn groups_that_are_lacking() {
    let bytes = partners();
    let image = Image::new(&bytes);
    let mut session = image.open("HUGO").expect("a user of the sample");
    for text in ["TRADE:PRICES", "TRADE:PRICES:MILL"] {
        let label = session.set_label(image, text);
        assert_eq!(label, Err(Refusal::GroupsNotAllowed), "{text}");
        let row = session.set_row_label(image, text);
        assert_eq!(row, Err(Refusal::GroupsNotAllowed), "{text}");
    }
}

#[test]
fn dominance_is_turned_round() {
    let bytes = partners();
    let image = Image::new(&bytes);
    let label = |text: &str| image.parse(text).expect("a label");
    let [none, one, two] = ["TRADE", "TRADE::MILL", "TRADE::HARBOUR,MILL"].map(label);
    assert_eq!(none.dominates(image, one), Ok(true));
    assert_eq!(one.strictly_dominates(image, two), Ok(true));
    assert_eq!(two.dominates(image, one), Ok(false));
    assert_eq!(one.dominates(image, none), Ok(false));
}

/// A profile that there is not, a parent of MILL, and COMPACCESS for HUGO, whose record is the second of block 3.
#[test]
fn images_that_are_refused() {
    let user = Refusal::UserRecord {
        block: 3,
        record: 1,
    };
    let group = Refusal::ComponentRecord {
        block: 1,
        record: 6,
    };
    for (offset, byte, refusal) in [
        (12, 2, Refusal::ImageLayout),
        (12, 255, Refusal::ImageLayout),
        (512 + 4 + 6 * 40 + 34, 0, group),
        (1_536 + 4 + 128 + 31, 4, user),
        // The write groups of HUGO are others than the read groups.
        (1_536 + 4 + 128 + 80, 3, user),
    ] {
        let bytes = changed(offset, byte);
        assert_eq!(Image::new(&bytes).check(), Err(refusal), "{offset}");
    }
}

/// Nobody holds COMPACCESS, and a move up keeps the profile.
#[test]
fn moves_keep_the_profile() {
    let bytes = partners();
    let image = Image::new(&bytes);
    assert_eq!(image.compaccess_users(&mut []), Ok(&[][..]));
    let mut cleared = vec![0; bytes.len()];
    assert_eq!(image.clear_compaccess(&mut cleared), Ok(bytes.len()));
    assert_eq!(cleared[..], bytes[..]);
    let mut buffer = [0; 56_832];
    let length = image.move_up(&mut buffer).expect("few labels and users");
    assert_eq!((buffer[4], buffer[12]), (2, 1));
    let moved = Image::new(&buffer[..length]);
    for name in ["ANNA", "HUGO", "MILA", "NILS", "OLGA"] {
        let session = image.open(name).expect("a user of the sample");
        assert_eq!(moved.open(name), Ok(session.clone()));
        assert_eq!(reads(moved, &session), reads(image, &session), "{name}");
        assert_eq!(writes(moved, &session), writes(image, &session), "{name}");
    }
}
