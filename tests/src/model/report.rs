//! The report program: it "reads an image from standard input into a 65,536-byte buffer and writes,
//! by user and then tag, the verdicts at the opened session".

use super::layout::{u32_at, Image};
use super::records::name_of;
use super::{accepted, may_read, may_write, open, Refusal};

/// All that the program writes for an input. "Input past the buffer is refused 1", as is an image
/// of that length.
pub fn report(input: &[u8]) -> String {
    match accepted(input) {
        Ok(image) => (0..image.counts.users().count)
            .map(|user| lines_of(&image, user))
            .collect(),
        Err(refusal) => refused(refusal),
    }
}

/// "A refused image gives one line", with the block, the record or the group that the number tells.
fn refused(refusal: Refusal) -> String {
    let number = refusal.number();
    match refusal {
        Refusal::Block(block) => format!("refused {number} at block {block}\n"),
        Refusal::Record { block, record, .. } => {
            format!("refused {number} at block {block} record {record}\n")
        }
        Refusal::Ring(group) => format!("refused {number} at group {group}\n"),
        _ => format!("refused {number}\n"),
    }
}

/// The lines of the user at a place, by tag. Label records stand by rising tag.
pub fn lines_of(image: &Image, user: usize) -> String {
    let name = name_of(image.user(user), 0);
    let Ok(session) = open(image, name) else {
        return String::new();
    };
    let line = |record: usize| {
        let tag = u32_at(image.label(record), 0) as u32;
        let reads = may_read(image, &session, tag) == Ok(true);
        let writes = may_write(image, &session, tag) == Ok(true);
        let name = String::from_utf8_lossy(name);
        let letter = |granted: bool, letter: char| if granted { letter } else { '-' };
        format!(
            "{name} {tag} {}{}\n",
            letter(reads, 'r'),
            letter(writes, 'w')
        )
    };
    (0..image.counts.labels().count).map(line).collect()
}
