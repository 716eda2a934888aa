//! Reads, updates and masked reads on the sample image. MARA reads and writes tag 10, reads 30, and
//! neither reads nor writes 20 or any tag that the image does not have.

mod common;

use brawnesk::{Image, Refusal, Session, SESSION};
use common::{faulty, mara, sample, table};

const WIDTH: usize = 16;

/// The rows of sample/table.bin.
const ROWS: [(u32, &[u8; 12]); 6] = [
    (20, b"works budget"),
    (10, b"kiln at 1240"),
    (0, b"no label yet"),
    (30, b"open day May"),
    (10, b"dock ladder3"),
    (99, b"unknown tag!"),
];

/// The places of those that MARA may read.
const READABLE: [usize; 3] = [1, 3, 4];

fn row(place: usize) -> Vec<u8> {
    let (tag, payload) = ROWS[place];
    [&tag.to_le_bytes()[..], payload].concat()
}

#[test]
fn the_sample_table_has_these_rows() {
    let rows: Vec<u8> = (0..ROWS.len()).flat_map(row).collect();
    assert_eq!(*table(), rows);
}

/// The readable rows, whole and in order, at the front of the buffer; later bytes stay.
#[test]
fn a_read() {
    let bytes = sample();
    let image = Image::new(&bytes);
    let mut buffer = vec![b'.'; 50];
    let session = mara(image);
    let rows = session.read(image, &table(), WIDTH, &mut buffer);
    let rows: Vec<&[u8]> = rows.expect("done").collect();
    assert_eq!(rows, READABLE.map(row));
    assert_eq!(buffer, [&READABLE.map(row).concat()[..], b".."].concat());
}

#[test]
fn a_read_of_no_row() {
    let bytes = sample();
    let image = Image::new(&bytes);
    let session = mara(image);
    for table in [&[][..], &row(0), &row(2)] {
        let rows = session.read(image, table, WIDTH, &mut []);
        assert_eq!(rows.expect("done").len(), 0);
    }
}

#[test]
fn refused_reads() {
    let bytes = sample();
    let image = Image::new(&bytes);
    let mut buffer = vec![b'.'; 47];
    let mut refusal = |image, session: &Session, table: &[u8], width| {
        session
            .read(image, table, width, &mut buffer)
            .expect_err("refused")
    };
    let (session, table) = (mara(image), table());
    assert_eq!(
        refusal(Image::new(&[]), &session, &table, 0),
        Refusal::ImageLength
    );
    assert_eq!(
        refusal(image, &Session([0; SESSION]), &table, 0),
        Refusal::SessionRules
    );
    for width in [0, 4, 513, usize::MAX] {
        assert_eq!(refusal(image, &session, &table, width), Refusal::TableShape);
    }
    assert_eq!(
        refusal(image, &session, &table[1..], WIDTH),
        Refusal::TableShape
    );
    assert_eq!(refusal(image, &session, &table, WIDTH), Refusal::Room);
    assert_eq!(buffer, [b'.'; 47]);
}

/// Row n among the readable ones gets the payload, and no other byte changes.
#[test]
fn an_update() {
    let bytes = sample();
    let image = Image::new(&bytes);
    let session = mara(image);
    for n in [0, 2] {
        let mut changed = table();
        let done = session.update(image, &mut changed, WIDTH, n, b"new payload!");
        assert_eq!(done, Ok(()));
        let mut expected = table();
        expected[READABLE[n] * WIDTH + 4..][..12].copy_from_slice(b"new payload!");
        assert_eq!(changed, expected);
    }
}

#[test]
fn refused_updates() {
    let bytes = sample();
    let image = Image::new(&bytes);
    let (session, broken) = (mara(image), Session([0; SESSION]));
    let payload = &b"new payload!"[..];
    let cases = [
        (
            Image::new(&[]),
            &broken,
            0,
            9,
            &payload[1..],
            Refusal::ImageLength,
        ),
        (image, &broken, 0, 9, &payload[1..], Refusal::SessionRules),
        (image, &session, 0, 9, &payload[1..], Refusal::TableShape),
        (
            image,
            &session,
            WIDTH,
            9,
            &payload[1..],
            Refusal::PayloadLength,
        ),
        (image, &session, WIDTH, 9, &[], Refusal::PayloadLength),
        (image, &session, WIDTH, 3, payload, Refusal::NoRow),
        (image, &session, WIDTH, usize::MAX, payload, Refusal::NoRow),
        (image, &session, WIDTH, 1, payload, Refusal::RowNotWritable),
    ];
    for (image, session, width, n, payload, refusal) in cases {
        let mut lent = table();
        let answer = session.update(image, &mut lent, width, n, payload);
        assert_eq!(answer, Err(refusal));
        assert_eq!(lent, table(), "{refusal}");
    }
}

/// Nothing else that a call refuses comes before.
#[test]
fn faulty_images_are_refused() {
    let broken = Session([0; SESSION]);
    for (bytes, refusal) in faulty() {
        let image = Image::new(&bytes);
        let (mut lent, mut buffer) = (table(), [b'.'; 47]);
        let rows = broken.read(image, &lent, 0, &mut buffer);
        assert_eq!(rows.expect_err("refused"), refusal);
        let answer = broken.update(image, &mut lent, 0, 9, b"");
        assert_eq!(answer, Err(refusal));
        let answer = broken.masked(image, &lent, 0, 9, b"hidden");
        assert_eq!(answer, Err(refusal));
        assert_eq!((lent, buffer), (table(), [b'.'; 47]));
    }
}

/// Both ways: a part of the table, and the mask itself, also an empty one.
#[test]
fn masked_reads() {
    let bytes = sample();
    let image = Image::new(&bytes);
    let (session, table) = (mara(image), table());
    for mask in [&b"hidden"[..], b""] {
        for (place, (_, payload)) in ROWS.iter().enumerate() {
            let part = session.masked(image, &table, WIDTH, place, mask);
            let part = part.expect("done").as_ptr_range();
            let row = &table[place * WIDTH..][..WIDTH];
            let readable = READABLE.contains(&place);
            let expected = if readable { &row[4..] } else { mask };
            assert_eq!(part, expected.as_ptr_range(), "place {place}");
            assert_eq!(row[4..], payload[..]);
        }
    }
}

#[test]
fn refused_masked_reads() {
    let bytes = sample();
    let image = Image::new(&bytes);
    let (session, broken, table) = (mara(image), Session([0; SESSION]), table());
    let cases = [
        (Image::new(&[]), &broken, 0, 9, Refusal::ImageLength),
        (image, &broken, 0, 9, Refusal::SessionRules),
        (image, &session, 0, 9, Refusal::TableShape),
        (image, &session, 513, 9, Refusal::TableShape),
        (image, &session, WIDTH, 6, Refusal::NoRow),
        (image, &session, WIDTH, usize::MAX, Refusal::NoRow),
    ];
    for (image, session, width, place, refusal) in cases {
        let answer = session.masked(image, &table, width, place, b"hidden");
        assert_eq!(answer, Err(refusal));
    }
}

/// Parts that a call only reads may overlap.
#[test]
fn shared_parts_may_overlap() {
    let bytes = sample();
    let image = Image::new(&bytes);
    let session = mara(image);
    assert_eq!(image.parse(&bytes[518..522]), image.parse("OPEN"));
    assert_eq!(image.open(&bytes[0x605..0x609]), Ok(mara(image)));
    // The label records as a table: rows of 24 bytes, of tags 10, 20 and 30.
    let (labels, mut buffer) = (&bytes[1_028..1_100], [0; 72]);
    let rows = session.read(image, labels, 24, &mut buffer).expect("done");
    assert!(rows.eq([&labels[..24], &labels[48..]]));
    let part = session.masked(image, labels, 24, 1, &labels[..4]);
    assert_eq!(part, Ok(&[10, 0, 0, 0][..]));
}
