//! Lists and cleared images of the sample co-operative with answers by hand.

use super::HolderCall;
use crate::builder::layout::BLOCK;
use crate::builder::{sample, to_image, Edition, Policy, COMPACCESS};
use crate::ffi::Answer;
use crate::moving::by_hand::{expect_refused, refusals_of_images, sized};

/// A program that is asked: what it is lent are the image and the buffer.
pub type Ask<'a> = &'a dyn Fn(HolderCall, &[u8], &mut [u8]) -> Answer;

/// Byte 31 of each record of a block of users. A byte adds to the block's first sum once, and to its second
/// as often as sums are taken from there on: byte 35 in the last 475 of the 510 steps, byte 163 in 347 and
/// byte 291 in 219. The bit is 4, and 4 * 475 is 115 mod 255, 4 * 347 is 113 and 4 * 219 is 111.
const RECORDS: [(usize, u16); 3] = [(35, 115), (163, 113), (291, 111)];

/// The image without the bit of these users. All users stand from that block on, three in a block.
fn cleared(image: &[u8], first_block: usize, holders: &[usize]) -> Vec<u8> {
    let mut cleared = image.to_vec();
    for &place in holders {
        let (at, weight) = RECORDS[place % 3];
        let block = &mut cleared[(first_block + place / 3) * BLOCK..][..BLOCK];
        block[at] -= 4;
        block[510] = ((u16::from(block[510]) + 255 - 4) % 255) as u8;
        block[511] = ((u16::from(block[511]) + 255 - weight) % 255) as u8;
    }
    cleared
}

/// The call gives that many bytes in a buffer that has room for them, and is refused 13 in a shorter one.
/// Later bytes stay.
fn expect(ask: Ask, call: HolderCall, image: &[u8], wanted: &[u8]) {
    let needed = wanted.len();
    let short = [0, 1, needed / 2, needed.saturating_sub(1)];
    for room in short.into_iter().chain([needed, needed + 1, needed + 100]) {
        let case = format!("{call:?}: {room} bytes for {needed}");
        let mut buffer = vec![0xa5; room];
        let answer = ask(call, image, &mut buffer);
        if room < needed {
            let refused = Answer::Refused {
                number: 13,
                place: 0,
            };
            assert_eq!(answer, refused, "{case}");
            assert!(buffer.iter().all(|&byte| byte == 0xa5), "{case}");
            continue;
        }
        assert_eq!(answer, Answer::Done(needed as u64), "{case}");
        assert!(buffer[..needed] == *wanted, "{case}");
        assert!(buffer[needed..].iter().all(|&byte| byte == 0xa5), "{case}");
    }
}

/// The list and the cleared image of a policy with these holders, whose first user is in that block.
fn expect_both(ask: Ask, policy: Policy, first_block: usize, holders: &[usize]) {
    let image = to_image(&policy.held_by(holders));
    let places: Vec<u8> = holders.iter().map(|&place| place as u8).collect();
    expect(ask, HolderCall::Users, &image, &places);
    let without = cleared(&image, first_block, holders);
    expect(ask, HolderCall::Clear, &image, &without);
    expect(ask, HolderCall::Users, &without, &[]);
    expect(ask, HolderCall::Clear, &without, &without);
}

/// All cases.
pub fn check(ask: Ask) {
    few_and_many(ask);
    other_privileges(ask);
    for call in HolderCall::ALL {
        let ask = |image: &[u8], buffer: &mut [u8]| ask(call, image, buffer);
        refusals_of_images(&ask);
        holders_of_edition_2(&ask);
    }
}

/// Nobody, one, some and all; the limits of edition 2 do not count here.
fn few_and_many(ask: Ask) {
    // Header, components and labels are in blocks 0 to 2.
    for holders in [&[][..], &[0]] {
        expect_both(ask, sample(), 3, holders);
        expect_both(ask, sized(3, 1), 3, holders);
    }
    let some: [&[usize]; 6] = [
        &[2],
        &[6],
        &[0, 2, 3, 6],
        &[3, 4, 5],
        &[1, 2, 3, 4, 5, 6],
        &[0, 1, 2, 3, 4, 5, 6],
    ];
    for holders in some {
        expect_both(ask, sized(3, 7), 3, holders);
    }
    expect_both(ask, sized(0, 0), 2, &[]);
    let all: Vec<usize> = (0..96).collect();
    // 80 blocks of labels.
    expect_both(ask, sized(1_680, 96), 82, &all);
    expect_both(ask, sized(1_680, 96), 82, &[0, 31, 32, 33, 95]);
}

/// MARA holds others beside it, which stay.
fn other_privileges(ask: Ask) {
    for others in (0..=127).filter(|bits| bits & COMPACCESS == 0) {
        for holders in [&[][..], &[0]] {
            let mut policy = sample();
            policy.users[0].privileges = others;
            expect_both(ask, policy, 3, holders);
        }
    }
}

/// 31 comes before 34 at the user who holds it.
fn holders_of_edition_2(ask: crate::moving::by_hand::Ask) {
    let layout = Answer::Refused {
        number: 31,
        place: 0,
    };
    for holders in [&[][..], &[0], &[0, 3], &[0, 1, 2, 3]] {
        let policy = sized(3, 4).in_edition(Edition::Two).held_by(holders);
        expect_refused(ask, &to_image(&policy), layout);
    }
}
