//! Maps of the samples with answers by hand.

use super::{every_wrong, MapCall};
use crate::builder::{partners, sample, to_image, Edition, Label, Policy, COMPACCESS};
use crate::ffi::{Answer, SESSION};
use crate::row_calls::{Lent, RowCall};
use crate::tables::by_hand::{self, refused_images};
use crate::vectors::opened;

/// A program that is asked.
pub type Ask<'a> = &'a dyn Fn(&[u8], &MapCall, &mut Lent) -> Answer;

/// P1 to P8 of document 01, of which MARA reads all but P2 and P7, and CREW:KILN:SOUTH, which she doesn't read:
/// level, compartments and groups.
const LABELS: [(u8, u64, u64); 9] = [
    (1, 1, 4),
    (1, 0, 1),
    (1, 0, 4 + 8),
    (1, 2, 0),
    (1, 2, 4),
    (0, 0, 0),
    (2, 0, 0),
    (1, 0, 2),
    (1, 1, 8),
];

/// For so many labels, from P1 on and after the ninth again from P1 on, a map.
type Made = (usize, &'static [u8]);

/// MARA's maps.
const BY_LABELS: [Made; 9] = [
    (0, &[]),
    (1, &[1]),
    (2, &[1]),
    (3, &[1 + 4]),
    (7, &[1 + 4 + 8 + 16 + 32]),
    (8, &[1 + 4 + 8 + 16 + 32 + 128]),
    (9, &[189, 0]),
    (16, &[189, 2 + 8 + 16 + 32 + 64]),
    (17, &[189, 122, 1]),
];

/// The same with READ or FULL.
const ALL: [Made; 9] = [
    (0, &[]),
    (1, &[1]),
    (2, &[1 + 2]),
    (3, &[1 + 2 + 4]),
    (7, &[127]),
    (8, &[255]),
    (9, &[255, 1]),
    (16, &[255, 255]),
    (17, &[255, 255, 1]),
];

/// The same with COMPACCESS, which adds CREW:KILN:SOUTH.
const BY_COMPARTMENTS: [Made; 4] = [
    (0, &[]),
    (8, &[189]),
    (9, &[189, 1]),
    (17, &[189, 122 + 1, 1]),
];

/// The users of the partners' sample, of whom OLGA has READ, and which of seven labels they read.
const PARTNERS: [(&str, u8); 5] = [
    ("ANNA", 1 + 2 + 4 + 8 + 16 + 32),
    ("HUGO", 1 + 2 + 8 + 32),
    ("MILA", 2 + 8 + 16),
    ("NILS", 2 + 8),
    ("OLGA", 127),
];

/// All cases.
pub fn check(edition: Edition, ask: Ask) {
    privileges(edition, ask);
    another_session_label(edition, ask);
    for (name, map) in PARTNERS {
        let policy = partners().in_edition(edition);
        Hand::new(&policy, name, &[map], ask).check();
    }
    order_of_refusals(edition, ask);
    refusals_of_images(edition, ask);
}

/// The last four privileges have no effect.
fn privileges(edition: Edition, ask: Ask) {
    let mut cases: Vec<(u8, &[Made])> = vec![
        (0, &BY_LABELS),
        (8 + 16 + 32 + 64, &BY_LABELS),
        (1, &ALL),
        (2, &ALL),
        (1 + 2 + 64, &ALL),
    ];
    if edition == Edition::One {
        cases.push((COMPACCESS, &BY_COMPARTMENTS));
        cases.push((COMPACCESS + 1, &ALL));
    }
    for (privileges, maps) in cases {
        for (labels, map) in maps {
            let mut policy = labelled(edition, *labels);
            policy.users[0].privileges = privileges;
            Hand::new(&policy, "MARA", map, ask).check();
        }
    }
}

/// At VAULT:KILN:DOCK, P10, MARA reads P1, P3, P6 and P7. The map that she opens with is refused.
fn another_session_label(edition: Edition, ask: Ask) {
    let mut hand = Hand::new(&labelled(edition, 9), "MARA", &[1 + 4 + 32 + 64, 0], ask);
    for (at, byte) in [(12, 2), (16, 1), (24, 4)] {
        hand.session[at] = byte;
    }
    hand.check();
    hand.judge(&[189, 0], refused(20));
}

/// The sample with so many labels.
pub fn labelled(edition: Edition, count: usize) -> Policy {
    let label = |place: usize| {
        let (level, compartments, groups) = LABELS[place % 9];
        Label {
            tag: 10 * (1 + place as u32),
            level,
            compartments: compartments.into(),
            groups: groups.into(),
        }
    };
    let mut policy = sample().in_edition(edition);
    policy.labels = (0..count).map(label).collect();
    policy
}

fn refused(number: u32) -> Answer {
    Answer::Refused { number, place: 0 }
}

/// A session and its map.
struct Hand<'a> {
    image: Vec<u8>,
    session: [u8; SESSION],
    map: &'a [u8],
    ask: Ask<'a>,
}

impl<'a> Hand<'a> {
    fn new(policy: &Policy, name: &str, map: &'a [u8], ask: Ask<'a>) -> Hand<'a> {
        Hand {
            image: to_image(policy),
            session: opened(policy, name),
            map,
            ask,
        }
    }

    fn lent(&self, room: usize) -> Lent {
        Lent {
            session: self.session,
            table: Vec::new(),
            buffer: vec![0xa5; room],
        }
    }

    /// The map is made in a buffer with room for it, and later bytes stay. It is accepted, and every other is not.
    fn check(&self) {
        let needed = self.map.len();
        for room in 0..needed + 4 {
            let mut after = self.lent(room);
            let mut answer = refused(13);
            if room >= needed {
                after.buffer[..needed].copy_from_slice(self.map);
                answer = Answer::Done(needed as u64);
            }
            let mut given = self.lent(room);
            let made = (self.ask)(&self.image, &MapCall::Make, &mut given);
            assert_eq!(made, answer, "{:?}, {room} bytes", self.map);
            assert_eq!(given.difference(&after), None, "{room} bytes");
        }
        self.judge(self.map, Answer::Done(0));
        for wrong in every_wrong(self.map) {
            self.judge(&wrong, refused(20));
        }
    }

    fn judge(&self, map: &[u8], answer: Answer) {
        let mut given = self.lent(3);
        let judged = (self.ask)(&self.image, &MapCall::Judge(map.to_vec()), &mut given);
        assert_eq!(judged, answer, "{map:?} for {:?}", self.map);
        assert_eq!(given.difference(&self.lent(3)), None);
    }
}

/// All that may be wrong, in the order in which it is told.
const ORDER: [u32; 5] = [31, 19, 12, 20, 13];

/// Each set of wrong things.
fn order_of_refusals(edition: Edition, ask: Ask) {
    for set in 0..1 << ORDER.len() {
        let wrong = (0..ORDER.len()).filter(|place| set >> place & 1 == 1);
        let wrong: Vec<u32> = wrong.map(|place| ORDER[place]).collect();
        the_first_is_told(edition, &wrong, ask);
    }
}

/// Of the wrong things the first one that the call looks at is told. MARA reads three rows of seven bytes, and her
/// map is 5.
fn the_first_is_told(edition: Edition, wrong: &[u32], ask: Ask) {
    let is_wrong = |number: u32| wrong.contains(&number);
    let image = match is_wrong(31) {
        true => refused_images(edition).swap_remove(2).0,
        false => to_image(&sample().in_edition(edition)),
    };
    let mut lent = by_hand::lent(if is_wrong(13) { 20 } else { 21 });
    if is_wrong(19) {
        lent.session[12] = 0;
    }
    let width = if is_wrong(12) { 8 } else { 7 };
    let map = vec![if is_wrong(20) { 7 } else { 5 }];
    let judge = MapCall::Judge(map.clone());
    let read = MapCall::Read(RowCall::ReadMapped { width, map });
    let calls = [
        (judge, 0, &[31, 19, 20][..]),
        (read, 3, &ORDER),
        (MapCall::Make, 1, &[31, 19]),
    ];
    for (call, done, looks_at) in calls {
        let told = looks_at.iter().find(|number| is_wrong(**number));
        let answer = told.map_or(Answer::Done(done), |number| refused(*number));
        let mut given = lent.clone();
        assert_eq!(
            ask(&image, &call, &mut given),
            answer,
            "{call:?}: {wrong:?}"
        );
        let is_changed = given.difference(&lent).is_some();
        let writes = told.is_none() && !matches!(call, MapCall::Judge(_));
        assert_eq!(is_changed, writes, "{call:?}: {wrong:?}");
    }
}

/// An image's refusals come first, whatever else is wrong.
fn refusals_of_images(edition: Edition, ask: Ask) {
    let mut lent = by_hand::lent(0);
    lent.session[12] = 0;
    for (image, answer) in refused_images(edition) {
        let read = RowCall::ReadMapped {
            width: 4,
            map: vec![7],
        };
        for call in [MapCall::Make, MapCall::Judge(vec![7]), MapCall::Read(read)] {
            let mut given = lent.clone();
            assert_eq!(ask(&image, &call, &mut given), answer, "{call:?}");
            assert_eq!(given.difference(&lent), None, "{call:?}");
        }
    }
}
