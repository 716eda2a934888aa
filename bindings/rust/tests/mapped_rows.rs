//! Reads with a map: they hand out what the plain read does, in both editions and both profiles.

mod common;

use brawnesk::{Image, Refusal, Session, MAP, SESSION};
use common::images::by_hand;
use common::thirds::{cases, user};
use common::{faulty, mara, partners, partners_table, sample, sample_with, table};

/// A row of the sample tables.
const WIDTH: usize = 16;

/// MARA's map: she may read the first and the third label.
const MARAS: [u8; 1] = [0b101];

/// What a read hands out.
type Rows = Result<Vec<u8>, Refusal>;

fn read(session: &Session, image: Image, table: &[u8], width: usize) -> Rows {
    let mut buffer = vec![0; table.len()];
    let rows = session.read(image, table, width, &mut buffer)?;
    Ok(rows.flatten().copied().collect())
}

fn read_mapped(session: &Session, image: Image, table: &[u8], width: usize, map: &[u8]) -> Rows {
    let mut buffer = vec![0; table.len()];
    let rows = session.read_mapped(image, table, width, map, &mut buffer)?;
    Ok(rows.flatten().copied().collect())
}

/// The rows stand at the front of the buffer, and later bytes stay. Parts that a call only reads may overlap:
/// the map is a byte of the table here.
#[test]
fn a_mapped_read() {
    let bytes = sample();
    let image = Image::new(&bytes);
    let table = [20, 0, 0, 0, 5, 10, 0, 0, 0, b'b', 30, 0, 0, 0, b'c'];
    let mut buffer = [b'.'; 12];
    let session = mara(image);
    let rows = session.read_mapped(image, &table, 5, &table[4..5], &mut buffer);
    assert!(rows.expect("done").eq(table[5..].chunks(5)));
    assert_eq!(buffer[..10], table[5..]);
    assert_eq!(buffer[10..], *b"..");
}

/// Rows of every tag, and of tags that no label carries.
#[test]
fn every_tag() {
    for case in cases(&[0, 1, 2, 16]) {
        let (bytes, table) = (case.image(), case.table());
        let image = Image::new(&bytes);
        let session = user(image);
        let rows = read_mapped(&session, image, &table, 5, &case.map());
        assert_eq!(rows, read(&session, image, &table, 5), "{case:?}");
        let count = rows.map(|rows| rows.len() / 5);
        assert_eq!(count, Ok(case.readable()), "{case:?}");
    }
}

/// MARA with READ or FULL has every bit. The sample table has 6 rows, two of them with unknown tags.
#[test]
fn rows_of_the_sample_table() {
    for (privileges, map, counts) in [(0, 0b101, [3, 3]), (1, 0b111, [6, 4]), (2, 0b111, [6, 4])] {
        let old = sample_with(1_536 + 4 + 31, privileges);
        let new = by_hand(&old);
        for (bytes, count) in [old, new].iter().zip(counts) {
            let image = Image::new(bytes);
            let session = mara(image);
            let rows = read_mapped(&session, image, &table(), WIDTH, &[map]);
            assert_eq!(rows, read(&session, image, &table(), WIDTH));
            assert_eq!(rows.map(|rows| rows.len() / WIDTH), Ok(count));
        }
    }
}

/// HUGO, and OLGA, who has READ and sees the row of tag 0 too.
#[test]
fn rows_of_the_release_profile() {
    let bytes = partners();
    let image = Image::new(&bytes);
    for (name, map, count) in [("HUGO", 0b010_1011, 4), ("OLGA", 0b111_1111, 8)] {
        let session = image.open(name).expect("a user of the sample");
        let rows = read_mapped(&session, image, &partners_table(), WIDTH, &[map]);
        assert_eq!(rows, read(&session, image, &partners_table(), WIDTH));
        assert_eq!(rows.map(|rows| rows.len() / WIDTH), Ok(count), "{name}");
    }
}

/// A wrong map hands out nothing, not even rows whose bits are right in it.
#[test]
fn wrong_maps() {
    for case in cases(&[0, 1, 2]) {
        let (bytes, table, map) = (case.image(), case.table(), case.map());
        let image = Image::new(&bytes);
        let longer = [&map[..], &[0]].concat();
        let mut wrong = vec![longer];
        if let Some((last, rest)) = map.split_last() {
            wrong.extend([rest.to_vec(), [rest, &[last ^ 128]].concat()]);
        }
        for wrong in wrong {
            let refused = read_mapped(&user(image), image, &table, 5, &wrong);
            assert_eq!(refused, Err(Refusal::WrongMap), "{case:?}");
        }
    }
}

/// After a change of the session label.
#[test]
fn an_old_map() {
    let bytes = sample();
    let image = Image::new(&bytes);
    let mut session = mara(image);
    assert_eq!(session.set_row_label(image, "CREW::DOCK"), Ok(()));
    assert_eq!(session.set_label(image, "CREW:GLAZE:NORTH"), Ok(()));
    let refused = read_mapped(&session, image, &table(), WIDTH, &MARAS);
    assert_eq!(refused, Err(Refusal::WrongMap));
    let rows = read_mapped(&session, image, &table(), WIDTH, &[0b100]);
    assert_eq!(rows, Ok(table()[3 * WIDTH..4 * WIDTH].to_vec()));
}

/// 12, then 20, also where there are no rows, then 13. Nothing is written.
#[test]
fn refused_reads() {
    let bytes = sample();
    let image = Image::new(&bytes);
    let (session, table, mut buffer) = (mara(image), table(), [b'.'; 47]);
    let (wrong, odd) = ([0b111], &table[1..]);
    for (table, width, map, refusal) in [
        (&table[..], 0, wrong, Refusal::TableShape),
        (&table, 4, MARAS, Refusal::TableShape),
        (&table, 513, wrong, Refusal::TableShape),
        (&table, usize::MAX, MARAS, Refusal::TableShape),
        (odd, WIDTH, wrong, Refusal::TableShape),
        (odd, WIDTH, MARAS, Refusal::TableShape),
        (&table, WIDTH, wrong, Refusal::WrongMap),
        (&[], WIDTH, wrong, Refusal::WrongMap),
        (&table, WIDTH, MARAS, Refusal::Room),
    ] {
        let rows = session.read_mapped(image, table, width, &map, &mut buffer);
        assert_eq!(rows.expect_err("refused"), refusal);
    }
    assert_eq!(buffer, [b'.'; 47]);
}

/// As many bytes as the rows have are enough.
#[test]
fn room_for_the_rows() {
    let bytes = sample();
    let image = Image::new(&bytes);
    let (session, table) = (mara(image), table());
    let mut buffer = [b'.'; 48];
    let rows = session.read_mapped(image, &table, WIDTH, &MARAS, &mut buffer);
    assert_eq!(rows.expect("done").len(), 3);
    let rows = session.read_mapped(image, &table[..WIDTH], WIDTH, &MARAS, &mut []);
    assert_eq!(rows.expect("done").len(), 0);
}

/// Whatever is wrong with the image, and then with the session, comes first.
#[test]
fn images_and_sessions_come_first() {
    let (bytes, broken) = (sample(), Session([0; SESSION]));
    let lengths = [0, 511].map(|length| (bytes[..length].into(), Refusal::ImageLength));
    let rules = (bytes.clone(), Refusal::SessionRules);
    for (bytes, refusal) in lengths.into_iter().chain(faulty()).chain([rules]) {
        let (image, mut buffer) = (Image::new(&bytes), [b'.'; MAP]);
        let rows = broken.read_mapped(image, &[0], 0, &[], &mut buffer);
        assert_eq!(rows.expect_err("refused"), refusal);
        assert_eq!(buffer, [b'.'; MAP]);
    }
}
