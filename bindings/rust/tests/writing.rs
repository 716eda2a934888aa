//! Images taken apart into records, and written from them.

mod common;

use brawnesk::{write, Image, Refusal};
use common::images::{by_hand, crowd};
use common::{faulty, mara, partners, sample, seal};

/// What the writer is told and lent.
#[derive(Clone)]
struct Parts {
    edition: u8,
    profile: u8,
    components: Box<[u8]>,
    labels: Box<[u8]>,
    users: Box<[u8]>,
}

impl Parts {
    /// An accepted image taken apart.
    fn of(bytes: &[u8]) -> Parts {
        let image = Image::new(bytes);
        let mut buffer = vec![b'.'; bytes.len()];
        let components = image.component_records(&mut buffer).expect("accepted");
        let components = components.into();
        let labels = image.label_records(&mut buffer).expect("accepted").into();
        let users = image.user_records(&mut buffer).expect("accepted").into();
        Parts {
            edition: bytes[4],
            profile: bytes[12],
            components,
            labels,
            users,
        }
    }

    fn write(&self, out: &mut [u8]) -> Result<usize, Refusal> {
        let Parts {
            components,
            labels,
            users,
            ..
        } = self;
        write(self.edition, self.profile, components, labels, users, out)
    }

    /// Refused, whatever room there is, and no byte of the buffer changes.
    fn assert_refused(&self, refusal: Refusal) {
        for room in [0, 512, 65_536] {
            let mut buffer = vec![b'.'; room];
            assert_eq!(self.write(&mut buffer), Err(refusal), "{room} bytes");
            assert!(buffer.iter().all(|&byte| byte == b'.'), "{room} bytes");
        }
    }
}

/// Both samples, the first in edition 2 too, and images with the most labels and users.
fn images() -> Vec<Box<[u8]>> {
    let crowds = [(0, 0), (1, 1), (21, 3), (22, 4), (1_680, 96)];
    let crowds = crowds.map(|(labels, users)| crowd(labels, users));
    let samples = [sample(), by_hand(&sample()), partners()];
    samples.into_iter().chain(crowds).collect()
}

#[test]
fn images_are_taken_apart_and_written_again() {
    for bytes in images() {
        let parts = Parts::of(&bytes);
        let mut written = vec![b'.'; bytes.len() + 2];
        assert_eq!(parts.write(&mut written), Ok(bytes.len()));
        assert_eq!(written[..bytes.len()], *bytes);
        assert_eq!(written[bytes.len()..], *b"..");
        assert_eq!(Image::new(&written[..bytes.len()]).check(), Ok(()));
        assert_eq!(parts.write(&mut written[..bytes.len()]), Ok(bytes.len()));
    }
}

/// The records are those of the blocks, one after another: 40 bytes for a component, and by edition 24 or 48 for a
/// label and 128 or 200 for a user.
#[test]
fn records_are_those_of_the_blocks() {
    let old = sample();
    for (bytes, label, user) in [(by_hand(&old), 48, 200), (old, 24, 128)] {
        let parts = Parts::of(&bytes);
        assert_eq!(*parts.components, bytes[512 + 4..][..9 * 40]);
        assert_eq!(*parts.labels, bytes[1_024 + 4..][..3 * label]);
        assert_eq!(*parts.users, bytes[1_536 + 4..][..user]);
    }
    let parts = Parts::of(&crowd(0, 0));
    assert_eq!((parts.labels.len(), parts.users.len()), (0, 0));
}

/// As many bytes as there are records, or as the image has, are enough.
#[test]
fn results_need_room() {
    let bytes = sample();
    let image = Image::new(&bytes);
    let mut buffer = [b'.'; 2_048];
    for room in [0, 1, 359] {
        let refused = image.component_records(&mut buffer[..room]);
        assert_eq!(refused, Err(Refusal::Room));
    }
    assert_eq!(
        image.label_records(&mut buffer[..3 * 24 - 1]),
        Err(Refusal::Room)
    );
    assert_eq!(image.user_records(&mut buffer[..127]), Err(Refusal::Room));
    let parts = Parts::of(&bytes);
    for room in [0, 512, 2_047] {
        assert_eq!(parts.write(&mut buffer[..room]), Err(Refusal::Room));
    }
    assert_eq!(buffer, [b'.'; 2_048]);
    assert_eq!(
        image.component_records(&mut buffer[..360]),
        Ok(&*parts.components)
    );
    assert_eq!(buffer[360..], [b'.'; 2_048 - 360]);
}

/// Whatever is wrong with the image comes before the room.
#[test]
fn taking_apart_checks_the_image() {
    let bytes = sample();
    let lengths = [0, 511].map(|length| (bytes[..length].into(), Refusal::ImageLength));
    for (bytes, refusal) in lengths.into_iter().chain(faulty()) {
        let image = Image::new(&bytes);
        assert_eq!(image.component_records(&mut []), Err(refusal));
        assert_eq!(image.label_records(&mut []), Err(refusal));
        assert_eq!(image.user_records(&mut []), Err(refusal));
    }
}

/// The faults of records of an image are those of the records, without a block. The sample has a block of each kind.
#[test]
fn records_are_refused_by_their_place() {
    let right = Parts::of(&sample());
    let cases = faulty()
        .into_iter()
        .filter(|it| it.1 != Refusal::ImageLayout);
    let mut seen = 0;
    for (bytes, refusal) in cases {
        let parts = Parts {
            components: bytes[512 + 4..][..9 * 40].into(),
            labels: bytes[1_024 + 4..][..3 * 24].into(),
            users: bytes[1_536 + 4..][..128].into(),
            ..right.clone()
        };
        parts.assert_refused(match refusal {
            Refusal::ComponentRecord { record, .. } => Refusal::LentComponent(record.into()),
            Refusal::LabelRecord { record, .. } => Refusal::LentLabel(record.into()),
            Refusal::UserRecord { record, .. } => Refusal::LentUser(record.into()),
            other => other,
        });
        seen += 1;
    }
    assert_eq!(seen, 8);
}

/// A label in a later block of the image is told by its place among all.
#[test]
fn places_go_on_over_blocks() {
    let mut parts = Parts::of(&crowd(1_680, 96));
    parts.users[95 * 128 + 39] = 1;
    parts.assert_refused(Refusal::LentUser(95));
    parts.labels[1_679 * 24 + 5] = 1;
    parts.assert_refused(Refusal::LentLabel(1_679));
    parts.labels[22 * 24 + 5] = 1;
    parts.assert_refused(Refusal::LentLabel(22));
    parts.components[39] = 1;
    parts.assert_refused(Refusal::LentComponent(0));
}

/// What is told, lengths and counts come before any record.
#[test]
fn what_is_told_comes_first() {
    let mut wrong = Parts::of(&sample());
    wrong.components[39] = 1;
    wrong.assert_refused(Refusal::LentComponent(0));
    let edit = |edit: fn(&mut Parts)| {
        let mut parts = wrong.clone();
        edit(&mut parts);
        parts.assert_refused(Refusal::ImageLayout);
    };
    edit(|parts| parts.edition = 0);
    edit(|parts| parts.edition = 3);
    edit(|parts| parts.profile = 2);
    edit(|parts| parts.components = parts.components[1..].into());
    edit(|parts| parts.labels = parts.labels[1..].into());
    edit(|parts| parts.users = parts.users[1..].into());
    edit(|parts| parts.components = Box::default());
    edit(|parts| parts.components = parts.components[3 * 40..].into());
    edit(|parts| parts.components = parts.components[..40].repeat(33).into());
    edit(|parts| parts.labels = parts.labels[..24].repeat(1_681).into());
    edit(|parts| parts.users = parts.users.repeat(97).into());
}

/// Classes that there are not, also more of them than two bytes can count, and classes out of their order.
#[test]
fn classes() {
    let right = Parts::of(&sample());
    let mut unknown = right.components[..40].to_vec();
    unknown[0] = 4;
    for many in [1, 70_000] {
        for place in [0, 3, 9] {
            let (before, after) = right.components.split_at(40 * place);
            let parts = Parts {
                components: [before, &unknown.repeat(many), after].concat().into(),
                ..right.clone()
            };
            parts.assert_refused(Refusal::LentComponent(place as u32));
        }
    }
    let (levels, others) = right.components.split_at(3 * 40);
    let parts = Parts {
        components: [others, levels].concat().into(),
        ..right.clone()
    };
    parts.assert_refused(Refusal::LentComponent(0));
}

/// MARA's default level and default compartments changed: her session opens with them.
#[test]
fn a_changed_user() {
    let bytes = sample();
    let mut parts = Parts::of(&bytes);
    (parts.users[34], parts.users[56]) = (2, 1);
    let mut written = [0; 2_048];
    assert_eq!(parts.write(&mut written), Ok(2_048));
    let mut wanted = bytes;
    (wanted[1_536 + 4 + 34], wanted[1_536 + 4 + 56]) = (2, 1);
    seal(&mut wanted[1_536..]);
    assert_eq!(written[..], *wanted);
    let image = Image::new(&written);
    assert_eq!(Ok(mara(image).label()), image.parse("VAULT:KILN:NORTH"));
}
