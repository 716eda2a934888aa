//! Maps beside the right one: how they differ from it, and wrong ones of each kind.

use crate::rng::Rng;
use crate::tables::numbers::bytes;

/// What a lent map is beside the right one.
#[derive(Clone, Copy, Debug, PartialEq, Eq, PartialOrd, Ord)]
pub enum MapKind {
    Right,
    /// It has no bytes, and the right one has some.
    Empty,
    /// It begins the right one.
    Shorter,
    /// It begins with the right one.
    Longer,
    /// It is right but for spare bits.
    Spare,
    /// A label's bit is set that the right one hasn't.
    More,
    /// A label's bit isn't set that the right one has.
    Less,
    /// Both, or it has another length and other bits.
    Other,
}

impl MapKind {
    /// All that are refused.
    pub const WRONG: [MapKind; 7] = [
        MapKind::Empty,
        MapKind::Shorter,
        MapKind::Longer,
        MapKind::Spare,
        MapKind::More,
        MapKind::Less,
        MapKind::Other,
    ];

    pub fn name(self) -> &'static str {
        match self {
            MapKind::Right => "the right map",
            MapKind::Empty => "an empty map",
            MapKind::Shorter => "a shorter map",
            MapKind::Longer => "a longer map",
            MapKind::Spare => "spare bits",
            MapKind::More => "a bit more",
            MapKind::Less => "a bit less",
            MapKind::Other => "another map",
        }
    }

    /// The kind of a map, where the right one is that one of so many labels.
    pub fn of(right: &[u8], labels: usize, map: &[u8]) -> MapKind {
        if map == right {
            return MapKind::Right;
        }
        if map.len() != right.len() {
            return match map.len() {
                0 => MapKind::Empty,
                _ if right.starts_with(map) => MapKind::Shorter,
                _ if map.starts_with(right) => MapKind::Longer,
                _ => MapKind::Other,
            };
        }
        let has_turned_to = |is_set: bool| {
            let mut places = with_bit(map, labels, is_set).into_iter();
            places.any(|place| bit(right, place) != is_set)
        };
        match (has_turned_to(true), has_turned_to(false)) {
            (false, false) => MapKind::Spare,
            (true, false) => MapKind::More,
            (false, true) => MapKind::Less,
            (true, true) => MapKind::Other,
        }
    }

    /// A map of the kind, if there is one beside that right one of so many labels.
    pub fn make(self, right: &[u8], labels: usize, rng: &mut Rng) -> Option<Vec<u8>> {
        let mut map = right.to_vec();
        match self {
            MapKind::Right => {}
            MapKind::Empty => map.clear(),
            MapKind::Shorter => map.truncate(rng.place(1, right.len())?),
            MapKind::Longer => {
                let byte = if rng.once_in(2) { 0 } else { rng.byte() };
                map.resize(right.len() + rng.range(1, 3), byte);
            }
            MapKind::Spare => turn_one_or_all(&mut map, spare(labels).collect(), rng)?,
            MapKind::More => turn_one_or_all(&mut map, with_bit(right, labels, false), rng)?,
            MapKind::Less => turn_one_or_all(&mut map, with_bit(right, labels, true), rng)?,
            MapKind::Other => map = bytes(rng.range(1, right.len() + 2), rng),
        }
        (MapKind::of(right, labels, &map) == self).then_some(map)
    }
}

/// The map of so many labels in which every label's bit is set, as READ and FULL have it.
pub fn every_bit(labels: usize) -> Vec<u8> {
    let mut map = vec![0; labels.div_ceil(8)];
    (0..labels).for_each(|place| turn(&mut map, place));
    map
}

/// Each map with one bit turned, spare ones too; each that begins the right one; and longer ones.
pub fn every_wrong(right: &[u8]) -> Vec<Vec<u8>> {
    let turned = (0..8 * right.len()).map(|place| {
        let mut map = right.to_vec();
        turn(&mut map, place);
        map
    });
    let shorter = (0..right.len()).map(|length| right[..length].to_vec());
    let tails: [&[u8]; 5] = [&[0], &[1], &[255], &[0; 8], &[0; 256]];
    let longer = tails.map(|tail| [right, tail].concat());
    turned.chain(shorter).chain(longer).collect()
}

/// The bit of a label.
pub fn bit(map: &[u8], place: usize) -> bool {
    map[place / 8] >> (place % 8) & 1 == 1
}

fn turn(map: &mut [u8], place: usize) {
    map[place / 8] ^= 1 << (place % 8);
}

/// The places of the spare bits.
fn spare(labels: usize) -> impl Iterator<Item = usize> {
    labels..labels.next_multiple_of(8)
}

/// The labels whose bits are set, or those whose bits are not.
fn with_bit(map: &[u8], labels: usize, is_set: bool) -> Vec<usize> {
    let places = 0..labels;
    places.filter(|&place| bit(map, place) == is_set).collect()
}

fn turn_one_or_all(map: &mut [u8], places: Vec<usize>, rng: &mut Rng) -> Option<()> {
    let one = rng.place(0, places.len())?;
    match rng.once_in(4) {
        true => places.iter().for_each(|&place| turn(map, place)),
        false => turn(map, places[one]),
    }
    Some(())
}

#[cfg(test)]
mod tests {
    use super::*;

    #[test]
    fn kinds_by_hand() {
        for (labels, right, map, kind) in [
            (0, &[][..], &[][..], MapKind::Right),
            (0, &[], &[0], MapKind::Longer),
            (3, &[5], &[5], MapKind::Right),
            (3, &[5], &[], MapKind::Empty),
            (3, &[5], &[5, 0], MapKind::Longer),
            (3, &[5], &[4, 0], MapKind::Other),
            (3, &[5], &[13], MapKind::Spare),
            (3, &[5], &[133], MapKind::Spare),
            (3, &[5], &[7], MapKind::More),
            (3, &[5], &[4], MapKind::Less),
            (3, &[5], &[0], MapKind::Less),
            (3, &[5], &[3], MapKind::Other),
            (9, &[189, 1], &[189], MapKind::Shorter),
            (9, &[189, 1], &[188], MapKind::Other),
            (9, &[189, 1], &[189, 0], MapKind::Less),
            (9, &[189, 1], &[189, 3], MapKind::Spare),
        ] {
            let given = MapKind::of(right, labels, map);
            assert_eq!(given, kind, "{right:?}, {map:?}");
        }
    }

    /// A map of one byte has no shorter one but the empty one, all bits have none more, and eight labels no spare bits.
    #[test]
    fn maps_of_each_kind() {
        let mut rng = Rng::new(1);
        for (labels, right, lacking) in [
            (5, &[9][..], &[MapKind::Shorter][..]),
            (5, &[31], &[MapKind::Shorter, MapKind::More]),
            (12, &[189, 1], &[]),
            (8, &[189], &[MapKind::Shorter, MapKind::Spare]),
        ] {
            for kind in MapKind::WRONG {
                let made = (0..40).filter_map(|_| kind.make(right, labels, &mut rng));
                let made: Vec<Vec<u8>> = made.collect();
                let is_lacking = lacking.contains(&kind);
                assert_eq!(made.is_empty(), is_lacking, "{right:?}, {kind:?}");
                assert!(made.iter().all(|map| map != right), "{right:?}, {kind:?}");
            }
        }
    }

    #[test]
    fn every_bit_is_set() {
        for (labels, map) in [(0, &[][..]), (1, &[1]), (8, &[255]), (11, &[255, 7])] {
            assert_eq!(every_bit(labels), map);
        }
    }

    #[test]
    fn every_wrong_map_is_wrong() {
        let wrong = every_wrong(&[189, 1]);
        assert_eq!(wrong.len(), 16 + 2 + 5);
        assert!(wrong.iter().all(|map| *map != [189, 1]));
        assert_eq!(every_wrong(&[]).len(), 5);
    }
}
