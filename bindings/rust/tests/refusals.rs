//! Answers taken apart: every number that the C header lists, with and without its place, and numbers
//! that it does not list.

use brawnesk::{decode, Refusal};

/// An answer that tells that number and place.
fn refused(number: u32, place: u32) -> u64 {
    (1 << 63) + (u64::from(number) << 32) + u64::from(place)
}

/// Block 3, record 2.
const PLACE: u32 = 3 * 65_536 + 2;

/// Each number, its refusal for that place, and the begin of its line.
const TABLE: [(u32, Refusal, &str); 26] = [
    (1, Refusal::ImageLength, "refused 1"),
    (2, Refusal::BlockCheck(PLACE), "refused 2 at block 196610"),
    (4, Refusal::NoUser, "refused 4"),
    (5, Refusal::TextShape, "refused 5"),
    (6, Refusal::UnknownName(PLACE), "refused 6 at offset 196610"),
    (
        7,
        Refusal::RepeatedName(PLACE),
        "refused 7 at offset 196610",
    ),
    (8, Refusal::LevelNotAllowed, "refused 8"),
    (9, Refusal::CompartmentsNotAllowed, "refused 9"),
    (10, Refusal::GroupsNotAllowed, "refused 10"),
    (11, Refusal::RowLabelOutside, "refused 11"),
    (12, Refusal::TableShape, "refused 12"),
    (13, Refusal::Room, "refused 13"),
    (14, Refusal::NoRow, "refused 14"),
    (15, Refusal::RowNotWritable, "refused 15"),
    (16, Refusal::PayloadLength, "refused 16"),
    (17, Refusal::MergeLetters, "refused 17"),
    (18, Refusal::NoComponent, "refused 18"),
    (19, Refusal::SessionRules, "refused 19"),
    (20, Refusal::WrongMap, "refused 20"),
    (31, Refusal::ImageLayout, "refused 31"),
    (
        32,
        Refusal::ComponentRecord {
            block: 3,
            record: 2,
        },
        "refused 32 at block 3 record 2",
    ),
    (
        33,
        Refusal::LabelRecord {
            block: 3,
            record: 2,
        },
        "refused 33 at block 3 record 2",
    ),
    (
        34,
        Refusal::UserRecord {
            block: 3,
            record: 2,
        },
        "refused 34 at block 3 record 2",
    ),
    (35, Refusal::ParentRing(PLACE), "refused 35 at group 196610"),
    (
        36,
        Refusal::CompaccessHolders(PLACE),
        "refused 36 holders 196610",
    ),
    (37, Refusal::MoveLimits, "refused 37"),
];

#[test]
fn every_number_is_its_refusal() {
    for (number, refusal, begin) in TABLE {
        assert_eq!(decode(refused(number, PLACE)), Err(refusal));
        assert_eq!(Refusal::new(number, PLACE), refusal);
        assert_eq!(refusal.number(), number);
        let line = format!("{begin}: {}", refusal.message());
        assert_eq!(refusal.to_string(), line);
    }
}

#[test]
fn whole_lines() {
    let lines = [
        (4, 7, "refused 4: no user has that name"),
        (
            20,
            0,
            "refused 20: the map is not that of this image and session",
        ),
        (
            31,
            0,
            "refused 31: the header, the length, a block's kind, record count or bytes outside records, \
             or lent records' edition, profile, lengths or counts are wrong",
        ),
        (
            35,
            2,
            "refused 35 at group 2: the group's parents never end: they come back to a group that \
             they passed",
        ),
        (
            36,
            1,
            "refused 36 holders 1: the image has users who hold COMPACCESS, a privilege that edition \
             2 does not have",
        ),
        (
            36,
            3,
            "refused 36 holders 3: the image has users who hold COMPACCESS, a privilege that edition \
             2 does not have",
        ),
        (
            37,
            0,
            "refused 37: the image has over 800 labels or 32 users, more than an image of edition 2 \
             holds",
        ),
        (
            99,
            5,
            "refused 99: a refusal that this program does not know",
        ),
    ];
    for (number, place, line) in lines {
        assert_eq!(Refusal::new(number, place).to_string(), line);
    }
}

/// Numbers 2, 6, 7 and 32 to 36 have a place, of up to 32 bits; the others have none.
#[test]
fn places_are_data() {
    for (number, ..) in TABLE {
        let has_place = [2, 6, 7, 32, 33, 34, 35, 36].contains(&number);
        for place in [0, 1, 126, 4_095, 65_535, 65_536, PLACE, u32::MAX] {
            let refusal = decode(refused(number, place)).expect_err("refused");
            assert_eq!(refusal.number(), number);
            assert_eq!(refusal.place(), has_place.then_some(place));
        }
    }
}

/// The place of 32, 33 and 34 is block * 65,536 + record.
#[test]
fn records_are_told_by_block_and_place() {
    let ends = [(0, 0), (0, 1), (1, 0), (127, 20), (0, 65_535), (65_535, 0)];
    for (block, record) in ends {
        let place = u32::from(block) * 65_536 + u32::from(record);
        let refusals = [
            (32, Refusal::ComponentRecord { block, record }),
            (33, Refusal::LabelRecord { block, record }),
            (34, Refusal::UserRecord { block, record }),
        ];
        for (number, refusal) in refusals {
            assert_eq!(decode(refused(number, place)), Err(refusal));
            assert_eq!(refusal.place(), Some(place));
        }
    }
}

/// Records that are lent to be written have the same numbers and words, and a place without a block.
#[test]
fn lent_records_are_told_by_their_place() {
    for place in [0, 1, 351, 65_535, 65_536, u32::MAX] {
        let lent = [
            (32, Refusal::LentComponent(place)),
            (33, Refusal::LentLabel(place)),
            (34, Refusal::LentUser(place)),
        ];
        for (number, refusal) in lent {
            let of_image = Refusal::new(number, place);
            assert_eq!((refusal.number(), refusal.place()), (number, Some(place)));
            assert_eq!(refusal.message(), of_image.message());
            let line = format!("refused {number} at record {place}: {}", refusal.message());
            assert_eq!(refusal.to_string(), line);
            assert_ne!(refusal, of_image);
        }
    }
}

#[test]
fn values_are_below_the_refusals() {
    for value in [0, 1, 7, 65_536 * 30 + 65_535, (1 << 63) - 1] {
        assert_eq!(decode(value), Ok(value));
    }
}

/// They keep their number and place.
#[test]
fn other_numbers_are_unknown() {
    for number in [0, 3, 21, 30, 38, 99, (1 << 31) - 1] {
        for place in [0, 5, 65_536, u32::MAX] {
            let unknown = Refusal::Unknown { number, place };
            assert_eq!(decode(refused(number, place)), Err(unknown));
            assert_eq!((unknown.number(), unknown.place()), (number, Some(place)));
            assert_eq!(Refusal::new(number, place), unknown);
        }
    }
}

/// SplitMix64: the same numbers in each run.
fn random(state: &mut u64) -> u64 {
    *state = state.wrapping_add(0x9e37_79b9_7f4a_7c15);
    let mut z = *state;
    z = (z ^ (z >> 30)).wrapping_mul(0xbf58_476d_1ce4_e5b9);
    z = (z ^ (z >> 27)).wrapping_mul(0x94d0_49bb_1331_11eb);
    z ^ (z >> 31)
}

/// Any answer: those of any number, and as many whose number is below 64.
#[test]
fn every_answer_can_be_taken_apart() {
    let mut state = 0;
    for turn in 0..20_000 {
        let answer = match (random(&mut state), turn % 2) {
            (any, 0) => any,
            (any, _) => refused((any >> 32) as u32 % 64, any as u32),
        };
        match decode(answer) {
            Ok(value) => assert_eq!(value, answer),
            Err(refusal) => {
                let place = refusal.place().unwrap_or(answer as u32);
                assert_eq!(refused(refusal.number(), place), answer);
                assert_eq!(Refusal::new(refusal.number(), place), refusal);
                let begin = format!("refused {}", refusal.number());
                assert!(refusal.to_string().starts_with(&begin));
            }
        }
    }
}

/// A number, the name of its case, and its words.
type Entry = (u32, String, String);

/// The list in the C header, `REFUSAL(13, BRAWNESK_ROOM, "..") \` for each entry.
fn header_list(header: &str) -> Vec<Entry> {
    let (_, list) = header
        .split_once("#define BRAWNESK_REFUSALS(REFUSAL) \\\n")
        .expect("a list");
    let (list, _) = list.split_once("\n\n").expect("its end");
    let entries = list.split("REFUSAL(").skip(1).map(|entry| {
        let (number, rest) = entry.split_once(", ").expect("a number");
        let (name, rest) = rest.split_once(',').expect("a name");
        let (_, rest) = rest.split_once('"').expect("words");
        let (words, rest) = rest.split_once('"').expect("their end");
        assert!([")", ") \\"].contains(&rest.trim_end()), "after {name}");
        let name = name.strip_prefix("BRAWNESK_").expect("our names");
        (number.parse().expect("a number"), case(name), words.into())
    });
    entries.collect()
}

/// `ImageLength` of `IMAGE_LENGTH`.
fn case(name: &str) -> String {
    let words = name.split('_').map(|word| {
        let (first, rest) = word.split_at(1);
        first.to_string() + &rest.to_lowercase()
    });
    words.collect()
}

/// This crate's entry, where it knows the number.
fn entry(number: u32) -> Option<Entry> {
    let refusal = Refusal::new(number, 0);
    let shown = format!("{refusal:?}");
    let name = shown.split([' ', '(']).next().expect("a name");
    let is_known = name != "Unknown";
    is_known.then(|| (number, name.into(), refusal.message().into()))
}

/// The C header has the same numbers, names and words, and no others.
#[test]
fn the_header_lists_the_same_refusals() {
    let path = concat!(env!("CARGO_MANIFEST_DIR"), "/../../include/brawnesk.h");
    let header = std::fs::read_to_string(path).expect("the header");
    let known: Vec<Entry> = (0..65_536).filter_map(entry).collect();
    assert_eq!(known.len(), TABLE.len());
    assert_eq!(header_list(&header), known);
    let other = format!("return \"{}\";", Refusal::new(0, 0).message());
    assert!(header.contains(&other), "the words for other numbers");
}
