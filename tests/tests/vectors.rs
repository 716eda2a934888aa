//! The vectors as a list: no row of the worked examples of the guide and no case of document 01 is
//! forgotten. The other tests run them.

use brawnesk_tests::vectors::{cases_of_the_sample, requests, rows_in_release, rows_of_the_guide};
use std::collections::BTreeSet;

/// Asks that the numbers are those from 1 to the last, and names what is amiss.
fn assert_all(letter: char, numbers: &BTreeSet<u32>, last: u32) {
    let all: BTreeSet<u32> = (1..=last).collect();
    let amiss: Vec<_> = all.symmetric_difference(numbers).collect();
    assert!(amiss.is_empty(), "{letter} missing or too many: {amiss:?}");
}

/// The rows of the worked examples.
const ROWS: u32 = 102;

/// Relabelling, switching users and inverse groups, which document 01 has not.
const FIRST_OF_REQUESTS: u32 = 85;

/// Inverse groups, for which there is the release profile.
const FIRST_OF_RELEASE: u32 = 91;

/// Each row stands as a vector with the answer by document 01, and there are no others.
#[test]
fn every_row_of_the_guide_stands() {
    assert_all('G', &rows_of_the_guide(), ROWS);
}

/// Each row that asks for what document 01 has not is also listed with the request that has it. Rows and
/// requests on the list are ones that there are.
#[test]
fn what_document_01_has_not_is_listed_with_its_request() {
    let waiting = requests();
    let rows: BTreeSet<u32> = waiting.iter().map(|it| it.row).collect();
    for row in FIRST_OF_REQUESTS..FIRST_OF_RELEASE {
        assert!(rows.contains(&row), "G{row} has no request");
    }
    for it in waiting {
        let is_there = (1..=ROWS).contains(&it.row) && (1..=14).contains(&it.request);
        assert!(is_there, "{it:?}");
    }
}

/// Each row on inverse groups also stands as a vector of the release profile.
#[test]
fn every_row_on_inverse_groups_stands_in_the_release_profile() {
    let rows = rows_in_release();
    for row in FIRST_OF_RELEASE..=ROWS {
        assert!(rows.contains(&row), "G{row} is not in the release profile");
    }
}

/// None waits for small letters in label text or for the release profile, which there are.
#[test]
fn no_row_waits_for_what_there_is() {
    for it in requests() {
        assert!(![9, 10].contains(&it.request), "{it:?}");
    }
}

/// P1 to P16 stand in the sample's own file.
#[test]
fn every_case_of_document_01_stands() {
    assert_all('P', &cases_of_the_sample(), 16);
}
