//! Label text, printed. A name's 30 bytes are copied whole as long as there is text after them.

use super::label::{places, Label};
use super::policy::{Class, Policy};
use brawnesk_tests::model::Refusal;

/// Prints a label to the front of the buffer and gives the text's length.
pub fn print(policy: &Policy, label: Option<Label>, buffer: &mut [u8]) -> Result<usize, Refusal> {
    let known = label.filter(|label| policy.has(label));
    let label = known.ok_or(Refusal::Component)?;
    let level = policy.component(label.level.into());
    let lists = [
        (policy.class(Class::Compartment).0, label.compartments),
        (policy.class(Class::Group).0, label.groups),
    ];
    // A class that is not the last has its colon also without names.
    let is_without = label.compartments == 0 && label.groups != 0;
    let lengths = lists.map(|(first, set)| length(policy, first, set));
    let length = length_of(level) + lengths[0] + usize::from(is_without) + lengths[1];
    let text = buffer.get_mut(..length).ok_or(Refusal::Room)?;
    let mut at = put(level, text, 0);
    for (first, set) in lists {
        if at < length {
            at = put_list(policy, first, set, text, at);
        }
    }
    Ok(length)
}

/// The length of a list, with what stands before each name. `first` is the place of the class among all components.
fn length(policy: &Policy, first: usize, set: u64) -> usize {
    let lengths = places(set).map(|place| 1 + length_of(policy.component(first + place)));
    lengths.sum()
}

fn length_of(record: &[u8; 40]) -> usize {
    record[1].into()
}

/// A colon, and the names of a set's places with commas between them; gives where they end.
fn put_list(policy: &Policy, first: usize, set: u64, text: &mut [u8], at: usize) -> usize {
    let (mut end, mut before) = (at, b':');
    if set == 0 {
        text[end] = before;
        return end + 1;
    }
    for place in places(set) {
        text[end] = before;
        end = put(policy.component(first + place), text, end + 1);
        before = b',';
    }
    end
}

/// A name at a place of the text; gives where it ends. What is written behind it is written over later.
#[inline(always)]
fn put(record: &[u8; 40], text: &mut [u8], at: usize) -> usize {
    let end = at + length_of(record);
    let name: &[u8; 30] = record[2..32].try_into().unwrap();
    match text[at..].first_chunk_mut() {
        Some(front) => *front = *name,
        None => text[at..end].copy_from_slice(&name[..length_of(record)]),
    }
    end
}
