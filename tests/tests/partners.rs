//! The co-operative with partner stores, the sample of the release profile, with answers by hand: who reads and
//! who writes which row, by the model and by the compiled library, in both editions.

use brawnesk_tests::at_the_desk;
use brawnesk_tests::builder::{partners, partners_table, to_image, Edition, Set};
use brawnesk_tests::compare::Checked;
use brawnesk_tests::desk::{refused, Desk, DONE, WIDTH};
use brawnesk_tests::ffi::Answer;
use brawnesk_tests::model;
use brawnesk_tests::row_calls::RowCall;

at_the_desk! {
    who_reads_and_who_writes
    rows_of_the_table
    updates
    masked_rows
    dominance
    released_further
}

/// 10 goes to HARBOUR, 20 to HARBOUR and MILL, 30 to none and 40 to all; 50 is OPEN and goes to MILL, 60 is of
/// STOCK and goes to HARBOUR and ORCHARD, 70 is SEALED and goes to all.
fn who_reads_and_who_writes(desk: &Desk) {
    let cases: [(&str, &[u32], &[u32]); 5] = [
        // Without read groups, and with TRADE as the minimum.
        ("ANNA", &[10, 20, 30, 40, 50, 60], &[10, 20, 30, 40, 60]),
        // Of HARBOUR, and without STOCK to write.
        ("HUGO", &[10, 20, 40, 60], &[10, 20, 40]),
        ("MILA", &[20, 40, 50], &[20, 40]),
        // Of HARBOUR and MILL.
        ("NILS", &[20, 40], &[20, 40]),
        // Of ORCHARD: READ reads every row and writes none. She has only STOCK in her session.
        ("OLGA", &[10, 20, 30, 40, 50, 60, 70], &[60]),
    ];
    for (name, reads, writes) in cases {
        let session = desk.open(name);
        assert_eq!(desk.reads(&session), reads, "{name}");
        assert_eq!(desk.writes(&session), writes, "{name}");
    }
}

/// Rows 30, 10, 20, 0, 40, 50, 60 and 70 in this order.
fn rows_of_the_table(desk: &Desk) {
    let olgas: &[usize] = match desk.policy.edition {
        Edition::One => &[0, 1, 2, 3, 4, 5, 6, 7],
        // Tag 0 is denied.
        Edition::Two => &[0, 1, 2, 4, 5, 6, 7],
    };
    for (name, places) in [
        ("ANNA", &[0, 1, 2, 4, 5, 6][..]),
        ("HUGO", &[1, 2, 4, 6]),
        ("MILA", &[2, 4, 5]),
        ("NILS", &[2, 4]),
        ("OLGA", olgas),
    ] {
        let mut lent = desk.lent(name);
        let answer = desk.rows(&RowCall::Read { width: WIDTH }, &mut lent);
        assert_eq!(answer, Answer::Done(places.len() as u64), "{name}");
        let row = |&place: &usize| &lent.table[place * WIDTH..][..WIDTH];
        let rows: Vec<u8> = places.iter().flat_map(row).copied().collect();
        assert_eq!(lent.buffer[..rows.len()], rows, "{name}");
    }
}

/// Row n of those that the user reads, and the place that has the new payload.
fn updates(desk: &Desk) {
    for (name, n, answer, place) in [
        ("HUGO", 0, DONE, 1),
        ("HUGO", 2, DONE, 4),
        // STOCK, which he may not write.
        ("HUGO", 3, refused(15), 0),
        ("HUGO", 4, refused(14), 0),
        // OPEN, which is under her minimum.
        ("MILA", 2, refused(15), 0),
        ("NILS", 1, DONE, 4),
        ("NILS", 2, refused(14), 0),
        // Not released, and she has READ.
        ("OLGA", 0, refused(15), 0),
        ("ANNA", 0, DONE, 0),
    ] {
        let before = desk.lent(name);
        let mut given = before.clone();
        let payload = b"new payload!".to_vec();
        let call = RowCall::Update {
            width: WIDTH,
            n,
            payload: payload.clone(),
        };
        assert_eq!(desk.rows(&call, &mut given), answer, "{name}: {n}");
        let mut after = before;
        if answer == DONE {
            after.table[place * WIDTH + 4..][..12].copy_from_slice(&payload);
        }
        assert_eq!(given.difference(&after), None, "{name}: {n}");
    }
}

/// HUGO at each place of the table.
fn masked_rows(desk: &Desk) {
    for place in 0..8 {
        let mut lent = desk.lent("HUGO");
        let mask = b"-".to_vec();
        let call = RowCall::Masked {
            width: WIDTH,
            place,
            mask,
        };
        let is_shown = [1, 2, 4, 6].contains(&place);
        let answer = desk.rows(&call, &mut lent);
        assert_eq!(answer, Answer::Done(is_shown.into()), "{place}");
    }
}

/// All groups of the first label are among the second's.
fn dominance(desk: &Desk) {
    let image = Checked::new(&desk.image);
    let label = |text: &str| {
        let label = model::parse(&desk.image, text.as_bytes()).expect("a label");
        label.to_bytes()
    };
    for (first, second, is_yes) in [
        ("TRADE::HARBOUR", "TRADE::HARBOUR,MILL", true),
        ("TRADE::HARBOUR,MILL", "TRADE::HARBOUR", false),
        ("TRADE::HARBOUR,MILL", "TRADE::HARBOUR,MILL", true),
        ("TRADE", "TRADE::ORCHARD", true),
        ("TRADE::ORCHARD", "TRADE", false),
        ("TRADE", "TRADE", true),
        ("OPEN::MILL", "TRADE::MILL", false),
        ("TRADE:PRICES:MILL", "OPEN:PRICES:MILL,ORCHARD", true),
        ("TRADE:PRICES:MILL", "OPEN:STOCK:MILL,ORCHARD", false),
    ] {
        let answer = desk
            .program
            .dominates(&image, &[label(first), label(second)]);
        assert_eq!(answer, Answer::Done(is_yes.into()), "{first}, {second}");
    }
}

/// Row 10 goes to MILL too, and 30 to HARBOUR: MILA and NILS win one, HUGO the other, and nobody loses any.
fn released_further(desk: &Desk) {
    let mut policy = desk.policy.clone();
    policy.labels[0].groups |= Set::of(1);
    policy.labels[2].groups |= Set::of(0);
    let more = Desk::new(desk.program, policy);
    for (name, reads) in [
        ("ANNA", &[10, 20, 30, 40, 50, 60][..]),
        ("HUGO", &[10, 20, 30, 40, 60]),
        ("MILA", &[10, 20, 40, 50]),
        ("NILS", &[10, 20, 40]),
    ] {
        assert_eq!(more.reads(&more.open(name)), reads, "{name}");
    }
}

/// The files are the builder's, byte for byte.
#[test]
fn the_files_are_the_builders() {
    let file = |name: &str| {
        let folder = concat!(env!("CARGO_MANIFEST_DIR"), "/../sample");
        std::fs::read(format!("{folder}/{name}")).expect("it is in the repository")
    };
    assert_eq!(file("partners.img"), to_image(&partners()));
    assert_eq!(file("partners.bin"), partners_table());
}
