//! The users who hold COMPACCESS, and images cleared of it. In a record of 128 bytes the privileges are byte
//! 31, and COMPACCESS is 4 there.

mod common;

use brawnesk::{Image, Refusal, Verdict};
use common::images::{by_hand, crowd};
use common::{faulty, mara, sample, sample_with, seal};

/// MARA's privileges in the sample.
const MARAS: usize = 1_536 + 4 + 31;

/// An image of edition 1 without groups and with so many labels and users, of whom these hold it.
fn held(labels: u16, users: u16, holders: &[usize]) -> Box<[u8]> {
    let mut image = crowd(labels, users);
    let first = 2 + usize::from(labels).div_ceil(21);
    for place in holders {
        let block = &mut image[512 * (first + place / 3)..][..512];
        block[4 + place % 3 * 128 + 31] |= 4;
        seal(block);
    }
    image
}

/// One byte for each, in order. Later bytes stay, and as many bytes as there are users are enough.
#[test]
fn users_are_listed() {
    let all: Vec<usize> = (0..96).collect();
    let cases: [(u16, &[usize]); 7] = [
        (0, &[]),
        (7, &[]),
        (7, &[6]),
        (7, &[0, 2, 3]),
        (7, &all[..7]),
        (96, &[0, 31, 32, 95]),
        (96, &all),
    ];
    for (users, holders) in cases {
        let bytes = held(30, users, holders);
        let image = Image::new(&bytes);
        let places: Vec<u8> = holders.iter().map(|&place| place as u8).collect();
        let mut buffer = [b'.'; 100];
        assert_eq!(image.compaccess_users(&mut buffer), Ok(&places[..]));
        assert!(buffer[places.len()..].iter().all(|&byte| byte == b'.'));
        let mut buffer = vec![b'.'; places.len()];
        assert_eq!(image.compaccess_users(&mut buffer), Ok(&places[..]));
        if let Some(short) = places.len().checked_sub(1) {
            let mut buffer = vec![b'.'; short];
            assert_eq!(image.compaccess_users(&mut buffer), Err(Refusal::Room));
            assert_eq!(image.compaccess_users(&mut []), Err(Refusal::Room));
            assert!(buffer.iter().all(|&byte| byte == b'.'));
        }
    }
}

/// The sample's MARA has no privileges. Others than COMPACCESS stay.
#[test]
fn the_bit_is_cleared() {
    for (before, after) in [(0, 0), (4, 0), (127, 123), (123, 123)] {
        let bytes = sample_with(MARAS, before);
        let mut buffer = [b'.'; 2_050];
        assert_eq!(Image::new(&bytes).clear_compaccess(&mut buffer), Ok(2_048));
        assert_eq!(buffer[..2_048], *sample_with(MARAS, after));
        assert_eq!(buffer[2_048..], *b"..");
        assert_eq!(Image::new(&buffer[..2_048]).check(), Ok(()));
    }
    assert_eq!(sample_with(MARAS, 0), sample());
}

/// Nothing else changes, also where there are more labels and users than edition 2 may have.
#[test]
fn only_holders_are_changed() {
    let all: Vec<usize> = (0..96).collect();
    for holders in [&[][..], &[0], &[95], &[1, 2, 3, 50], &all] {
        let bytes = held(1_680, 96, holders);
        let mut buffer = vec![0; bytes.len()];
        let answer = Image::new(&bytes).clear_compaccess(&mut buffer);
        assert_eq!(answer, Ok(bytes.len()));
        assert_eq!(buffer[..], crowd(1_680, 96)[..], "{holders:?}");
    }
}

/// As many bytes as the image has are enough.
#[test]
fn a_cleared_image_needs_room() {
    let bytes = sample_with(MARAS, 4);
    let mut buffer = [b'.'; 2_048];
    for room in [0, 512, 2_047] {
        let answer = Image::new(&bytes).clear_compaccess(&mut buffer[..room]);
        assert_eq!(answer, Err(Refusal::Room), "{room}");
    }
    assert_eq!(buffer, [b'.'; 2_048]);
    assert_eq!(Image::new(&bytes).clear_compaccess(&mut buffer), Ok(2_048));
}

/// Whatever is wrong with the image comes before the room.
#[test]
fn both_calls_check_the_image() {
    let bytes = sample();
    let lengths = [0, 511].map(|length| (bytes[..length].into(), Refusal::ImageLength));
    for (bytes, refusal) in lengths.into_iter().chain(faulty()) {
        let image = Image::new(&bytes);
        assert_eq!(image.compaccess_users(&mut []), Err(refusal));
        assert_eq!(image.clear_compaccess(&mut []), Err(refusal));
    }
}

/// Edition 2 has no COMPACCESS: 34 at its user, and 31 for both calls, but after 1 and 2.
#[test]
fn edition_2() {
    let mut buffer = [b'.'; 2_048];
    let mut refusals = |bytes: &[u8]| {
        let image = Image::new(bytes);
        let users = image.compaccess_users(&mut buffer).map(<[u8]>::len);
        [users, image.clear_compaccess(&mut buffer)].map(|answer| answer.expect_err("refused"))
    };
    let fault = Refusal::UserRecord {
        block: 3,
        record: 0,
    };
    for (privileges, check) in [(0, Ok(())), (123, Ok(())), (4, Err(fault)), (7, Err(fault))] {
        let mut bytes = by_hand(&sample_with(MARAS, privileges));
        assert_eq!(Image::new(&bytes).check(), check, "{privileges}");
        assert_eq!(refusals(&bytes), [Refusal::ImageLayout; 2]);
        bytes[600] ^= 1;
        assert_eq!(refusals(&bytes), [Refusal::BlockCheck(1); 2]);
        assert_eq!(refusals(&bytes[1..]), [Refusal::ImageLength; 2]);
    }
    assert_eq!(buffer, [b'.'; 2_048]);
}

/// A move up tells how many users hold it, after the limits and before the room. Cleared, the image is moved.
#[test]
fn holders_are_not_moved_up() {
    let all: Vec<usize> = (0..96).collect();
    let mut buffer = vec![b'.'; 65_536];
    for (labels, users, holders, refusal) in [
        (1, 1, &[0][..], Refusal::CompaccessHolders(1)),
        (30, 7, &[2, 3, 6], Refusal::CompaccessHolders(3)),
        (800, 32, &all[..32], Refusal::CompaccessHolders(32)),
        (801, 32, &[0], Refusal::MoveLimits),
        (0, 33, &all[..33], Refusal::MoveLimits),
        (1_680, 96, &all, Refusal::MoveLimits),
    ] {
        let bytes = held(labels, users, holders);
        let image = Image::new(&bytes);
        assert_eq!(image.check(), Ok(()));
        for room in [0, 65_536] {
            assert_eq!(image.move_up(&mut buffer[..room]), Err(refusal));
        }
        assert!(buffer.iter().all(|&byte| byte == b'.'));
        let mut cleared = vec![0; bytes.len()];
        assert_eq!(image.clear_compaccess(&mut cleared), Ok(bytes.len()));
        let moved = Image::new(&cleared).move_up(&mut vec![0; 65_536]);
        match refusal {
            Refusal::MoveLimits => assert_eq!(moved, Err(refusal)),
            _ => assert!(moved.is_ok(), "{moved:?}"),
        }
    }
}

/// Tag 20 carries CREW:KILN:WORKS here, and MARA's session has KILN, but no group for it. COMPACCESS alone
/// lets her read and write it.
#[test]
fn verdicts_after_a_clearing_move() {
    let mut bytes = sample_with(1_024 + 4 + 24 + 8, 1);
    bytes[MARAS] = 4;
    seal(&mut bytes[1_536..]);
    let mut cleared = [0; 2_048];
    assert_eq!(Image::new(&bytes).clear_compaccess(&mut cleared), Ok(2_048));
    let (old, new) = (Image::new(&bytes), Image::new(&cleared));
    let session = mara(old);
    assert_eq!(mara(new), session);
    for (tag, read, write) in [(10, true, true), (20, false, false), (30, true, false)] {
        let verdict = |is_yes| Ok(if is_yes { Verdict::Yes } else { Verdict::No });
        let is_lost = tag == 20;
        assert_eq!(session.may_read(old, tag), verdict(read || is_lost));
        assert_eq!(session.may_write(old, tag), verdict(write || is_lost));
        assert_eq!(session.may_read(new, tag), verdict(read));
        assert_eq!(session.may_write(new, tag), verdict(write));
    }
}
