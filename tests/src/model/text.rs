//! Label text, both ways. The main property: what `print` gives, `parse` reads as the same label.

use super::label::Label;
use super::layout::Image;
use super::records::{is_name_byte, name_of};
use super::{accepted, Refusal};

/// A part of a text, in the end a name, and the offset of its first byte.
struct Part<'a> {
    offset: usize,
    bytes: &'a [u8],
}

/// The label that a text stands for.
pub fn parse(image: &[u8], text: &[u8]) -> Result<Label, Refusal> {
    label_of(&accepted(image)?, text)
}

/// The same for an image that is accepted.
pub fn label_of(image: &Image, text: &[u8]) -> Result<Label, Refusal> {
    let longest = image.edition().longest_text;
    let [level, compartments, groups] = names(text, longest).ok_or(Refusal::Text)?;
    let level = places(image, 1, &level)?;
    Ok(Label {
        level: level[0],
        compartments: places(image, 2, &compartments)?.into_iter().collect(),
        groups: places(image, 3, &groups)?.into_iter().collect(),
    })
}

/// The text of a label, with the places of each class in rising order.
pub fn print(image: &[u8], label: &Label) -> Result<Vec<u8>, Refusal> {
    let image = accepted(image)?;
    let lists = [
        list(&image, 1, [label.level])?,
        list(&image, 2, label.compartments.iter())?,
        list(&image, 3, label.groups.iter())?,
    ];
    let tails = lists.iter().rev().take_while(|list| list.is_empty());
    Ok(lists[..3 - tails.count()].join(&b':'))
}

/// The same for a buffer of `room` bytes.
pub fn print_within(image: &[u8], label: &Label, room: usize) -> Result<Vec<u8>, Refusal> {
    let text = print(image, label)?;
    if text.len() > room {
        return Err(Refusal::Room);
    }
    Ok(text)
}

/// The names of a text by class, if it is LEVEL, LEVEL:list, LEVEL:list:list or LEVEL::list and not too
/// long.
fn names(text: &[u8], longest: usize) -> Option<[Vec<Part<'_>>; 3]> {
    if text.len() > longest {
        return None;
    }
    let whole = Part {
        offset: 0,
        bytes: text,
    };
    let parts = split(&whole, b':');
    match parts.as_slice() {
        [level] => Some([name(level)?, vec![], vec![]]),
        [level, second] => Some([name(level)?, names_of_list(second)?, vec![]]),
        [level, second, third] if second.bytes.is_empty() => {
            Some([name(level)?, vec![], names_of_list(third)?])
        }
        [level, second, third] => {
            Some([name(level)?, names_of_list(second)?, names_of_list(third)?])
        }
        _ => None,
    }
}

/// The one name that a part is.
fn name<'a>(part: &Part<'a>) -> Option<Vec<Part<'a>>> {
    let names = names_of_list(part)?;
    (names.len() == 1).then_some(names)
}

/// The names of a list: one at least, and none of them empty.
fn names_of_list<'a>(part: &Part<'a>) -> Option<Vec<Part<'a>>> {
    let names = split(part, b',');
    let is_name = |name: &Part| !name.bytes.is_empty() && name.bytes.iter().all(is_text_byte);
    names.iter().all(is_name).then_some(names)
}

/// By R-9 "label text may now hold a..z" beside what images' names have.
fn is_text_byte(byte: &u8) -> bool {
    is_name_byte(byte) || byte.is_ascii_lowercase()
}

fn split<'a>(part: &Part<'a>, separator: u8) -> Vec<Part<'a>> {
    let mut offset = part.offset;
    let mut pieces = Vec::new();
    for bytes in part.bytes.split(|&byte| byte == separator) {
        pieces.push(Part { offset, bytes });
        offset += bytes.len() + 1;
    }
    pieces
}

/// The places of names in their class, or the refusal of the leftmost that has none or came before.
fn places(image: &Image, class: u8, names: &[Part]) -> Result<Vec<usize>, Refusal> {
    let mut places = Vec::new();
    for name in names {
        let place = place_of(image, class, name.bytes).ok_or(Refusal::NameUnknown(name.offset))?;
        if places.contains(&place) {
            return Err(Refusal::NameRepeated(name.offset));
        }
        places.push(place);
    }
    Ok(places)
}

/// By R-9 a..z are "taken as A..Z in matching a component's name".
fn place_of(image: &Image, class: u8, name: &[u8]) -> Option<usize> {
    let (first, count) = image.counts.class(class)?;
    let name = name.to_ascii_uppercase();
    (0..count).find(|place| name_of(image.component(first + place), 1) == name)
}

/// The names at some places of a class, with commas between them.
fn list(
    image: &Image,
    class: u8,
    places: impl IntoIterator<Item = usize>,
) -> Result<Vec<u8>, Refusal> {
    let (first, count) = image.counts.class(class).ok_or(Refusal::Component)?;
    let mut names = Vec::new();
    for place in places {
        if place >= count {
            return Err(Refusal::Component);
        }
        names.push(name_of(image.component(first + place), 1));
    }
    Ok(names.join(&b','))
}
