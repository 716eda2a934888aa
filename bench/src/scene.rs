//! What the measured calls are lent: a largest image, and sessions, tags, texts and labels for it. All
//! of it is made from the builder's policy and by the model, so it is there without the library too.

use crate::rows::{Rows, Shape, READ_OR_FULL};
use crate::who::On;
use brawnesk_tests::builder::{to_image, Component, Label, Policy, Profile, Set, User};
use brawnesk_tests::ffi::{LABEL, SESSION};
use brawnesk_tests::maps::facts;
use brawnesk_tests::model::{self, Image, Kind};
use brawnesk_tests::writing::Lists;

/// The length of the longest image.
const LONGEST: usize = 65_536;

pub struct Scene {
    pub image: Vec<u8>,
    /// The image taken apart, with its edition and profile.
    pub records: Lists,
    pub last_user: Vec<u8>,
    pub last_group: u8,
    /// The tag of the last label record.
    pub last_tag: u32,
    /// A tag above all tags of the image.
    pub unknown_tag: u32,
    /// Opened for the last user with neither READ nor FULL whose typical text has all its names.
    pub session: [u8; SESSION],
    /// The name of the last level.
    pub level_text: Vec<u8>,
    /// A level, 3 compartments and 3 groups that the session may have as its row label.
    pub text: Vec<u8>,
    /// The session with that row label. It may have the text as its session label too.
    pub with_row: [u8; SESSION],
    /// Opened for the user whose longest session label is the longest of all users.
    pub widest: [u8; SESSION],
    pub widest_text: Vec<u8>,
    /// The label of all compartments and groups and of the level with the longest name.
    pub whole: [u8; LABEL],
    pub whole_text: Vec<u8>,
    /// The label of the last label record, and the label of `text`.
    pub last_label: [u8; LABEL],
    pub text_label: [u8; LABEL],
    /// How many bytes a text may have.
    pub longest_text: usize,
    pub rows: Rows,
}

impl Scene {
    /// What a call on an image is lent. Only the rows differ from call to call.
    pub fn new(on: On, rows: &Shape) -> Scene {
        let policy = on.policy();
        let image = to_image(&policy);
        let accepted = model::accepted(&image).expect("the image keeps all rules");
        let last = policy.labels.last().expect("there are labels");
        let (user, label) = typical(&policy);
        let text = text_of(&policy, &label);
        let (widest, widest_label) = widest(&policy);
        let (compartments, groups) = (policy.all_compartments(), policy.all_groups());
        let whole = longest(&policy, 0, u8::MAX, compartments, groups);
        let session = opened(&accepted, user);
        let with_row = model::set_row_label(&accepted, &session, &text);
        Scene {
            last_user: policy.users[policy.users.len() - 1].name.clone().into(),
            last_group: (policy.groups.len() - 1) as u8,
            last_tag: last.tag,
            unknown_tag: last.tag + 1,
            session: session.to_bytes(),
            with_row: with_row.expect("it is allowed").to_bytes(),
            text,
            level_text: policy.levels[policy.levels.len() - 1].name.clone().into(),
            widest: opened(&accepted, widest).to_bytes(),
            widest_text: text_of(&policy, &widest_label),
            whole: whole.to_bytes(),
            whole_text: text_of(&policy, &whole),
            last_label: last.to_bytes(),
            text_label: label.to_bytes(),
            longest_text: policy.edition.longest_text(),
            rows: Rows::new(rows),
            records: taken_apart(&image),
            image,
        }
    }
}

/// What calls write. Before a call all is the same, so what two versions leave can be compared.
#[derive(PartialEq, Eq)]
pub struct Out {
    pub session: [u8; SESSION],
    pub label: [u8; LABEL],
    pub text: Vec<u8>,
    /// A read's buffer.
    pub rows: Vec<u8>,
    /// A copy of the table, for an update.
    pub table: Vec<u8>,
    /// For a move up, for an image that is written, and for records. As long as the longest image.
    pub image: Vec<u8>,
    /// As long as the longest map.
    pub map: Vec<u8>,
}

impl Out {
    pub fn new(scene: &Scene) -> Out {
        Out {
            session: [b'#'; SESSION],
            label: [b'#'; LABEL],
            text: vec![b'#'; scene.longest_text],
            rows: vec![b'#'; scene.rows.room],
            table: scene.rows.table.clone(),
            image: vec![b'#'; LONGEST],
            map: vec![b'#'; facts::LONGEST],
        }
    }

    /// A copy of a session, for a call that changes it.
    pub fn lend(&mut self, session: &[u8; SESSION]) -> &mut [u8; SESSION] {
        self.session = *session;
        &mut self.session
    }
}

fn taken_apart(image: &[u8]) -> Lists {
    let records = |kind: Kind| model::records_of(image, kind, usize::MAX);
    Lists {
        edition: image[4],
        profile: image[12],
        lists: Kind::ALL.map(|kind| records(kind).expect("the image is accepted")),
    }
}

fn opened(image: &Image, user: &User) -> model::Session {
    model::open(image, user.name.as_bytes()).expect("a user of the image")
}

/// The last user that verdicts go by labels for and that may write 3 compartments and 3 groups when
/// opened; with the label of the default level and of the lowest, the middle and the highest of both. In the
/// release profile a row label has the session's groups; there are some.
fn typical(policy: &Policy) -> (&User, Label) {
    let groups = |user: &User| match policy.profile {
        Profile::Tree => three(policy.below(user.groups.default) & policy.below(user.groups.write)),
        Profile::Release => Some(user.groups.default).filter(|set| !set.is_empty()),
    };
    let label = |user: &User| {
        Some(Label {
            tag: 0,
            level: user.levels.default,
            compartments: three(user.compartments.default & user.compartments.write)?,
            groups: groups(user)?,
        })
    };
    let mut users = policy.users.iter().rev();
    let found = users.find_map(|user| {
        let is_ruled = user.privileges & READ_OR_FULL == 0;
        is_ruled.then(|| label(user)).flatten().map(|it| (user, it))
    });
    found.expect("there is such a user")
}

/// The lowest, the middle and the highest place of a set that has three.
fn three(set: Set) -> Option<Set> {
    let places: Vec<usize> = set.places().collect();
    let last = places.len().checked_sub(1).filter(|&last| last > 1)?;
    let chosen = [places[0], places[last / 2], places[last]];
    Some(chosen.into_iter().collect())
}

/// The user whose longest session label has the longest text, and that label: all that the user may
/// read. It covers the row label at which the user's session opens.
fn widest(policy: &Policy) -> (&User, Label) {
    let labels = policy.users.iter().map(|user| {
        let (lowest, highest) = (user.levels.row, user.levels.maximum);
        let groups = policy.below(user.groups.read);
        let label = longest(policy, lowest, highest, user.compartments.read, groups);
        (user, label)
    });
    let widest = labels.max_by_key(|(_, label)| text_of(policy, label).len());
    widest.expect("there are users")
}

/// The label of two sets and of the level with the longest name in a range, the highest of several.
fn longest(policy: &Policy, low: u8, high: u8, compartments: Set, groups: Set) -> Label {
    let levels = (0..policy.levels.len() as u8).filter(|level| (low..=high).contains(level));
    let length = |level: &u8| policy.levels[usize::from(*level)].name.len();
    Label {
        tag: 0,
        level: levels.max_by_key(length).expect("a level in the range"),
        compartments,
        groups,
    }
}

/// The text of a label with compartments and groups.
fn text_of(policy: &Policy, label: &Label) -> Vec<u8> {
    let list = |class: &[Component], set: Set| {
        let places = (0..class.len()).filter(|&place| set.has(place));
        let names: Vec<&str> = places.map(|place| class[place].name.as_str()).collect();
        names.join(",")
    };
    let level = &policy.levels[usize::from(label.level)].name;
    let compartments = list(&policy.compartments, label.compartments);
    let groups = list(&policy.groups, label.groups);
    format!("{level}:{compartments}:{groups}").into_bytes()
}
