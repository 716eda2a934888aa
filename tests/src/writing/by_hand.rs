//! Records of the sample co-operative, and of the one with partner stores, with changes and answers by hand.
//!
//! The components are at places 0 to 8: OPEN, CREW, VAULT; KILN, GLAZE; WORKS, NORTH, DOCK, SOUTH. The labels 10, 20
//! and 30 are at places 0 to 2. In place of MARA there are three users with her rights: ANNA, MARA and NILS.

use super::{Ask, Lists};
use crate::builder::{partners, sample, Edition, User};
use crate::ffi::Answer;
use crate::model::Kind;
use Change::*;
use Kind::{Component as C, Label as L, User as U};

/// What is done to the lists before they are lent.
#[derive(Clone, Copy, Debug)]
enum Change {
    /// Another edition or profile is told.
    InEdition(u8),
    InProfile(u8),
    /// A byte of the record at a place.
    Byte(Kind, usize, usize, u8),
    /// The parent of a component; its high byte, where there is one, is 0.
    Parent(usize, u8),
    /// The first byte of the groups that a user may write.
    WriteGroups(usize, u8),
    Empty(Kind),
    /// So many bytes less at the end.
    Cut(Kind, usize),
    /// So many zeros more at the end.
    More(Kind, usize),
    /// The record at a place so many times more.
    Again(Kind, usize, usize),
    /// From a place on so many records of class 9.
    Unknown(usize, usize),
    Exchange(Kind, usize, usize),
}

impl Change {
    fn apply(self, lists: &mut Lists) {
        let is_second = lists.edition == 2;
        match self {
            InEdition(edition) => lists.edition = edition,
            InProfile(profile) => lists.profile = profile,
            Byte(kind, place, byte, value) => lists.record_mut(kind, place)[byte] = value,
            Parent(place, parent) => {
                let record = lists.record_mut(C, place);
                record[34] = parent;
                record[35] = 0;
            }
            WriteGroups(user, groups) => {
                let byte = if is_second { 104 } else { 80 };
                lists.record_mut(U, user)[byte] = groups;
            }
            Empty(kind) => lists.list(kind).clear(),
            Cut(kind, bytes) => {
                let length = lists.lists[kind as usize].len() - bytes;
                lists.list(kind).truncate(length);
            }
            More(kind, bytes) => lists.list(kind).extend(vec![0; bytes]),
            Again(kind, place, times) => {
                let records = lists.record(kind, place).repeat(times);
                lists.insert(kind, place, &records);
            }
            Unknown(place, times) => {
                let mut record = lists.record(C, 0).to_vec();
                record[0] = 9;
                lists.insert(C, place, &record.repeat(times));
            }
            Exchange(kind, one, other) => lists.exchange(kind, one, other),
        }
    }
}

/// Changes, and the number and the place that are then told; 0 for none.
type Case = (&'static [Change], u32, u32);

/// 31: what is told, lengths, and counts, whatever is wrong with records.
const COUNTS: [Case; 24] = [
    (&[InEdition(0)], 31, 0),
    (&[InEdition(3)], 31, 0),
    (&[InEdition(255)], 31, 0),
    (&[InProfile(2)], 31, 0),
    (&[InProfile(255)], 31, 0),
    (&[Cut(C, 1)], 31, 0),
    (&[More(C, 1)], 31, 0),
    (&[Cut(L, 1)], 31, 0),
    (&[More(L, 23)], 31, 0),
    (&[Cut(U, 1)], 31, 0),
    (&[More(U, 127)], 31, 0),
    (&[Empty(C)], 31, 0),
    // No level: they are compartments, or of no class at all.
    (
        &[Byte(C, 0, 0, 2), Byte(C, 1, 0, 2), Byte(C, 2, 0, 2)],
        31,
        0,
    ),
    (
        &[Byte(C, 0, 0, 9), Byte(C, 1, 0, 9), Byte(C, 2, 0, 9)],
        31,
        0,
    ),
    // 33 levels, 65 compartments, 257 groups; 259 levels, which one byte counts as 3.
    (&[Again(C, 0, 30)], 31, 0),
    (&[Again(C, 3, 63)], 31, 0),
    (&[Again(C, 5, 253)], 31, 0),
    (&[Again(C, 0, 256)], 31, 0),
    (&[Again(L, 0, 1_678)], 31, 0),
    (&[Again(U, 0, 94)], 31, 0),
    // Before any record is looked at.
    (&[Cut(U, 1), Byte(C, 0, 39, 1)], 31, 0),
    (&[Again(U, 0, 94), Byte(C, 0, 39, 1)], 31, 0),
    (&[Cut(U, 1), Byte(L, 0, 4, 9)], 31, 0),
    (&[InEdition(3), Byte(C, 0, 0, 9)], 31, 0),
];

/// 32, and what it comes before.
const COMPONENTS: [Case; 24] = [
    (&[Unknown(0, 1)], 32, 0),
    (&[Unknown(4, 1)], 32, 4),
    (&[Unknown(9, 1)], 32, 9),
    (&[Unknown(0, 70_000)], 32, 0),
    (&[Unknown(5, 70_000)], 32, 5),
    (&[Unknown(9, 70_000)], 32, 9),
    (&[Byte(C, 4, 0, 0)], 32, 4),
    // KILN before VAULT. SOUTH as a level: then there are four, and KILN stands at the fourth place.
    (&[Exchange(C, 2, 3)], 32, 2),
    (&[Byte(C, 8, 0, 1)], 32, 3),
    (&[Byte(C, 0, 0, 3)], 32, 0),
    // VAULT as a compartment stands in order, and KILN's numeric form is lower.
    (&[Byte(C, 2, 0, 2)], 32, 3),
    (&[Byte(C, 8, 39, 1)], 32, 8),
    (&[Byte(C, 8, 31, b'A')], 32, 8),
    (&[Byte(C, 8, 33, 255)], 32, 8),
    (&[Parent(0, 0)], 32, 0),
    // A parent that is no group; the lowest record decides; of two that clash the later.
    (&[Parent(8, 4)], 32, 8),
    (&[Byte(C, 8, 39, 1), Byte(C, 2, 39, 1)], 32, 2),
    (&[Exchange(C, 0, 1)], 32, 1),
    (&[Again(C, 6, 1)], 32, 7),
    (&[Byte(C, 8, 39, 1), Byte(L, 0, 4, 9)], 32, 8),
    (&[Byte(C, 8, 39, 1), Byte(U, 0, 31, 128)], 32, 8),
    (&[Byte(C, 8, 39, 1), Parent(5, 0)], 32, 8),
    (&[Byte(C, 8, 39, 1), WriteGroups(0, 8)], 32, 8),
    // The release profile has no parents, and NORTH has one.
    (&[InProfile(1)], 32, 6),
];

/// 33, 34 and 35, and what they come before.
const LATER: [Case; 22] = [
    (&[Byte(L, 2, 4, 3)], 33, 2),
    (&[Byte(L, 2, 7, 1)], 33, 2),
    (&[Byte(L, 1, 0, 30)], 33, 2),
    (&[Exchange(L, 0, 1)], 33, 1),
    (&[Byte(L, 2, 4, 3), Byte(L, 0, 4, 3)], 33, 0),
    (&[Byte(L, 2, 4, 3), Byte(U, 0, 31, 128)], 33, 2),
    (&[Byte(L, 2, 4, 3), Parent(7, 2)], 33, 2),
    (&[Byte(L, 2, 4, 3), WriteGroups(0, 8)], 33, 2),
    (&[Byte(U, 2, 31, 128)], 34, 2),
    (&[Exchange(U, 0, 1)], 34, 1),
    (&[WriteGroups(2, 16)], 34, 2),
    (&[Byte(U, 2, 31, 128), WriteGroups(0, 8)], 34, 2),
    (&[Byte(U, 1, 39, 1), Parent(7, 2)], 34, 1),
    // DOCK is its own parent; SOUTH is, and WORKS is under it; NORTH and SOUTH are.
    (&[Parent(7, 2)], 35, 2),
    (&[Parent(8, 3), Parent(5, 3)], 35, 0),
    (&[Parent(6, 1), Parent(8, 3)], 35, 1),
    (&[Parent(7, 2), WriteGroups(0, 8)], 35, 2),
    // SOUTH isn't below NORTH.
    (&[WriteGroups(1, 8)], 34, 1),
    (&[WriteGroups(2, 8), WriteGroups(1, 8)], 34, 1),
    (&[], 0, 0),
    (&[Empty(L)], 0, 0),
    (&[Empty(U)], 0, 0),
];

/// The sample with three users.
fn lists(edition: Edition) -> Lists {
    let mut policy = sample().in_edition(edition);
    let mara = policy.users[0].clone();
    let named = |name: &str| User {
        name: name.to_string(),
        ..mara.clone()
    };
    policy.users = ["ANNA", "MARA", "NILS"].map(named).to_vec();
    Lists::of(&policy)
}

/// How long the image is: a header and a block of each kind that there are records of, but in edition 2 two of users.
fn length(lists: &Lists) -> usize {
    let users = if lists.edition == 2 { 2 } else { 1 };
    let blocks = [1, 1, users].into_iter().zip(&lists.lists);
    let blocks = blocks.filter(|(_, list)| !list.is_empty());
    512 * (1 + blocks.map(|(blocks, _)| blocks).sum::<usize>())
}

/// What a program answers otherwise than it should, or does to the buffer, with buffers of several lengths.
pub fn differences(ask: Ask) -> Vec<String> {
    let mut found = Vec::new();
    for edition in Edition::ALL {
        for &(changes, number, place) in COUNTS.iter().chain(&COMPONENTS).chain(&LATER) {
            let mut lists = lists(edition);
            changes.iter().for_each(|it| it.apply(&mut lists));
            let wanted = match number {
                0 => Answer::Done(length(&lists) as u64),
                _ => Answer::Refused { number, place },
            };
            let difference = ask_all(ask, &lists, wanted);
            found.extend(difference.map(|it| format!("{edition:?}, {changes:?}: {it}")));
        }
    }
    found.extend(whole_images(ask));
    found
}

/// Buffers of lengths around the one that is needed. Where they are too short an image is refused 13.
fn ask_all(ask: Ask, lists: &Lists, wanted: Answer) -> Option<String> {
    let length = length(lists);
    let rooms = [0, 1, 511, length - 1, length, length + 1, length + 600];
    rooms.into_iter().find_map(|room| {
        let (wanted, changed) = match wanted {
            Answer::Done(_) if room < length => (ROOM, 0),
            Answer::Done(_) => (wanted, length),
            Answer::Refused { .. } => (wanted, 0),
        };
        let mut buffer = vec![0xa5; room];
        let answer = ask(lists, &mut buffer);
        let stays = buffer[changed..].iter().all(|&byte| byte == 0xa5);
        let is_right = answer == wanted && stays;
        (!is_right).then(|| format!("{room} bytes of room, {answer:?}, other bytes stay: {stays}"))
    })
}

const ROOM: Answer = Answer::Refused {
    number: 13,
    place: 0,
};

/// The files of both samples are what is written from their records.
fn whole_images(ask: Ask) -> Option<String> {
    let cooperative = include_bytes!("../../../sample/cooperative.img");
    let with_partners = include_bytes!("../../../sample/partners.img");
    let samples = [(sample(), &cooperative[..]), (partners(), with_partners)];
    samples.into_iter().find_map(|(policy, image)| {
        let mut buffer = vec![0xa5; image.len()];
        let answer = ask(&Lists::of(&policy), &mut buffer);
        let is_right = answer == Answer::Done(image.len() as u64) && buffer == image;
        (!is_right).then(|| format!("{:?}: {answer:?}", policy.profile))
    })
}

/// All answers are right.
pub fn check(ask: Ask) {
    assert_eq!(differences(ask), [""; 0]);
}
