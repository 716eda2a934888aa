//! The co-operative with partner stores, the sample of the release profile, with answers by hand: new labels of
//! its users' sessions, by the model and by the compiled library, in both editions.

use brawnesk_tests::at_the_desk;
use brawnesk_tests::calls::Call;
use brawnesk_tests::desk::{refused, Desk, DONE};
use brawnesk_tests::ffi::Answer;

at_the_desk! {
    a_wider_session_loses_rows
    a_session_without_read_groups
    session_labels_refused_10
    session_labels_refused_11
    row_labels_refused_10
    the_order_of_refusals
    sessions_that_break_their_rules
}

/// HUGO adds MILL and then ORCHARD to his session, the row label first. He gives them up again.
fn a_wider_session_loses_rows(desk: &Desk) {
    let mut session = desk.open("HUGO");
    assert_eq!(desk.reads(&session), [10, 20, 40, 60]);
    let two = "TRADE:PRICES,STOCK:HARBOUR,MILL";
    assert_eq!(desk.label(&mut session, two), refused(11));
    let row = "TRADE:PRICES:HARBOUR,MILL,ORCHARD";
    assert_eq!(desk.row(&mut session, row), DONE);
    assert_eq!(desk.label(&mut session, two), DONE);
    assert_eq!(desk.reads(&session), [20, 40]);
    assert_eq!(desk.writes(&session), [20, 40]);
    assert_eq!(desk.row(&mut session, "TRADE:PRICES:HARBOUR"), refused(10));
    let three = "TRADE:PRICES,STOCK:HARBOUR,MILL,ORCHARD";
    assert_eq!(desk.label(&mut session, three), DONE);
    assert_eq!(desk.reads(&session), [40]);
    assert_eq!(desk.label(&mut session, "TRADE:PRICES:HARBOUR"), DONE);
    assert_eq!(desk.reads(&session), [10, 20, 40]);
    assert_eq!(desk.row(&mut session, "TRADE:PRICES:HARBOUR"), DONE);
}

/// ANNA's row label goes to HARBOUR and MILL, and bounds the groups that her session may have.
fn a_session_without_read_groups(desk: &Desk) {
    let mut session = desk.open("ANNA");
    let label = |groups: &str| format!("TRADE:PRICES,STOCK{groups}");
    assert_eq!(desk.label(&mut session, &label(":ORCHARD")), refused(11));
    assert_eq!(desk.label(&mut session, &label(":HARBOUR")), DONE);
    assert_eq!(desk.reads(&session), [10, 20, 40, 60]);
    assert_eq!(desk.label(&mut session, "SEALED:PRICES,STOCK"), DONE);
    assert_eq!(desk.reads(&session), [10, 20, 30, 40, 50, 60, 70]);
    assert_eq!(desk.writes(&session), [10, 20, 30, 40, 60, 70]);
    assert_eq!(desk.row(&mut session, "TRADE"), DONE);
    assert_eq!(desk.label(&mut session, &label(":HARBOUR")), refused(11));
    assert_eq!(desk.label(&mut session, &label("")), DONE);
}

/// A read group is lacking.
fn session_labels_refused_10(desk: &Desk) {
    desk.expect(
        "HUGO",
        Call::SetLabel,
        &[
            ("TRADE:PRICES,STOCK", refused(10)),
            ("TRADE:PRICES,STOCK:MILL", refused(10)),
            ("TRADE:PRICES,STOCK:MILL,ORCHARD", refused(10)),
            ("TRADE:PRICES,STOCK:HARBOUR", DONE),
        ],
    );
    desk.expect(
        "NILS",
        Call::SetLabel,
        &[
            ("TRADE:PRICES:HARBOUR", refused(10)),
            ("TRADE:PRICES:MILL,ORCHARD", refused(10)),
            ("TRADE:PRICES:MILL,HARBOUR", DONE),
        ],
    );
}

/// The row label lacks a group of the new session label, is above it, or has other compartments.
fn session_labels_refused_11(desk: &Desk) {
    let every = ("TRADE:PRICES:HARBOUR,MILL,ORCHARD", refused(11));
    desk.expect("NILS", Call::SetLabel, &[every]);
    desk.expect(
        "MILA",
        Call::SetLabel,
        &[
            ("TRADE:PRICES:HARBOUR,MILL", DONE),
            ("TRADE:PRICES:MILL,ORCHARD", refused(11)),
            every,
        ],
    );
    desk.expect(
        "HUGO",
        Call::SetLabel,
        &[
            ("OPEN:PRICES,STOCK:HARBOUR", refused(11)),
            ("TRADE:STOCK:HARBOUR", refused(11)),
        ],
    );
}

/// A group of the session is lacking. Groups may be added.
fn row_labels_refused_10(desk: &Desk) {
    desk.expect(
        "HUGO",
        Call::SetRowLabel,
        &[
            ("TRADE:PRICES", refused(10)),
            ("TRADE:PRICES:MILL,ORCHARD", refused(10)),
            ("TRADE:PRICES:HARBOUR", DONE),
            ("TRADE:PRICES:HARBOUR,ORCHARD", DONE),
        ],
    );
    desk.expect(
        "NILS",
        Call::SetRowLabel,
        &[
            ("TRADE:PRICES:MILL", refused(10)),
            ("OPEN::HARBOUR,MILL", DONE),
        ],
    );
    desk.expect("ANNA", Call::SetRowLabel, &[("TRADE", DONE)]);
}

/// 8, 9, 10 and 11, where several would be given.
fn the_order_of_refusals(desk: &Desk) {
    desk.expect(
        "HUGO",
        Call::SetLabel,
        &[
            ("SEALED:PRICES:MILL", refused(8)),
            ("OPEN:STOCK:MILL", refused(10)),
        ],
    );
    let stock = ("TRADE:STOCK:ORCHARD", refused(9));
    desk.expect("MILA", Call::SetLabel, &[stock]);
    desk.expect(
        "HUGO",
        Call::SetRowLabel,
        &[
            ("SEALED:STOCK:MILL", refused(8)),
            ("TRADE:STOCK:MILL", refused(9)),
            ("TRADE:PRICES:MILL", refused(10)),
        ],
    );
}

/// NILS has HARBOUR and MILL in both labels. The session's groups begin at byte 24 and the row's at byte 72; the
/// policy has three groups.
fn sessions_that_break_their_rules(desk: &Desk) {
    for (groups, row, answer) in [
        (3, 3, Answer::Done(1)),
        (3, 7, Answer::Done(1)),
        (7, 7, Answer::Done(0)),
        // The session lacks a read group, or the row label one of the session's.
        (1, 3, refused(19)),
        (0, 3, refused(19)),
        (3, 1, refused(19)),
        (3, 0, refused(19)),
        (7, 3, refused(19)),
        // A group that there isn't.
        (3, 3 + 8, refused(19)),
        (3 + 8, 3 + 8, refused(19)),
        (3 + 128, 3 + 128, refused(19)),
    ] {
        let mut session = desk.open("NILS");
        (session[24], session[72]) = (groups, row);
        let mut given = session;
        let read = desk.call(&Call::MayRead(20), &mut given);
        assert_eq!(read, answer, "{groups}, {row}");
        assert_eq!(given, session);
    }
    // Byte 47 of each label, which is a group past all.
    for at in [8 + 47, 56 + 47] {
        let mut session = desk.open("NILS");
        session[at] = 128;
        let read = desk.call(&Call::MayRead(20), &mut session);
        assert_eq!(read, refused(19), "byte {at}");
    }
}
