//! Damage to what the writer is lent that no image shows: to what it is told, to the lengths and the counts of its
//! lists, and to the order of records.

use super::Lists;
use crate::builder::Edition;
use crate::model::{Kind, Refusal};
use crate::rng::Rng;

/// What becomes of well-formed lists after the damage.
#[derive(Clone, Copy, Debug, PartialEq, Eq)]
pub enum Told {
    Accepted,
    Refused(Refusal),
    /// That depends on the lists.
    Open,
}

/// Kinds of damage, each with the function that does it. It gives nothing, and changes nothing, where the lists lack
/// what it needs.
macro_rules! list_damages {
    ($($kind:ident => $function:expr,)*) => {
        #[derive(Clone, Copy, Debug, PartialEq, Eq, PartialOrd, Ord)]
        pub enum ListDamage { $($kind,)* }

        impl ListDamage {
            pub const ALL: &'static [ListDamage] = &[$(ListDamage::$kind,)*];

            pub fn apply(self, lists: &mut Lists, rng: &mut Rng) -> Option<Told> {
                let function: fn(&mut Lists, &mut Rng) -> Option<Told> = match self {
                    $(ListDamage::$kind => $function,)*
                };
                function(lists, rng)
            }
        }
    };
}

list_damages! {
    // 31.
    EditionUnknown => edition_unknown,
    ProfileUnknown => profile_unknown,
    ComponentsNotWhole => |lists, rng| not_whole(lists, Kind::Component, rng),
    LabelsNotWhole => |lists, rng| not_whole(lists, Kind::Label, rng),
    UsersNotWhole => |lists, rng| not_whole(lists, Kind::User, rng),
    NoLevel => no_level,
    ComponentsEmpty => components_empty,
    LevelsOver => |lists, rng| classes_over(lists, 1, rng),
    CompartmentsOver => |lists, rng| classes_over(lists, 2, rng),
    GroupsOver => |lists, rng| classes_over(lists, 3, rng),
    LabelsOver => |lists, rng| over(lists, Kind::Label, rng),
    UsersOver => |lists, rng| over(lists, Kind::User, rng),
    // 32, 33 and 34.
    ClassUnknown => class_unknown,
    UnknownBefore => |lists, rng| unknown_at(lists, Some(0), rng),
    UnknownAfter => |lists, rng| unknown_at(lists, Some(usize::MAX), rng),
    UnknownBetween => |lists, rng| unknown_at(lists, None, rng),
    ClassesExchanged => classes_exchanged,
    ClassesTurned => classes_turned,
    ComponentsExchanged => |lists, rng| exchanged(lists, Kind::Component, rng),
    LabelsExchanged => |lists, rng| exchanged(lists, Kind::Label, rng),
    UsersExchanged => |lists, rng| exchanged(lists, Kind::User, rng),
    LabelDoubled => |lists, rng| doubled(lists, Kind::Label, rng),
    UserDoubled => |lists, rng| doubled(lists, Kind::User, rng),
    // None, or what the second implementation tells.
    LabelsEmpty => |lists, _| emptied(lists, Kind::Label),
    UsersEmpty => |lists, _| emptied(lists, Kind::User),
    EditionOther => edition_other,
    ProfileOther => profile_other,
    ClassOther => class_other,
    ComponentDropped => component_dropped,
}

impl ListDamage {
    /// Whether 31 is told of well-formed lists, whatever else is wrong with their records.
    pub fn comes_first(self) -> bool {
        self <= ListDamage::UsersOver
    }
}

fn layout() -> Option<Told> {
    Some(Told::Refused(Refusal::Layout))
}

fn told(kind: Kind, place: usize) -> Option<Told> {
    Some(Told::Refused(Refusal::Lent { kind, place }))
}

fn edition_unknown(lists: &mut Lists, rng: &mut Rng) -> Option<Told> {
    lists.edition = match rng.index(3) {
        0 => 0,
        1 => 3,
        _ => rng.range(3, 255) as u8,
    };
    layout()
}

fn profile_unknown(lists: &mut Lists, rng: &mut Rng) -> Option<Told> {
    lists.profile = rng.with_ends(2, 255) as u8;
    layout()
}

/// Some bytes of a record more or less.
fn not_whole(lists: &mut Lists, kind: Kind, rng: &mut Rng) -> Option<Told> {
    let size = lists.size(kind);
    let (bytes, list) = (rng.with_ends(1, size - 1), lists.list(kind));
    let longer = list.len() + bytes;
    match list.len() >= bytes && rng.once_in(2) {
        true => list.truncate(list.len() - bytes),
        false => list.resize(longer, rng.byte()),
    }
    layout()
}

fn no_level(lists: &mut Lists, _: &mut Rng) -> Option<Told> {
    let list = lists.list(Kind::Component);
    let others = list.chunks(40).filter(|record| record[0] != 1);
    *list = others.collect::<Vec<_>>().concat();
    layout()
}

fn components_empty(lists: &mut Lists, _: &mut Rng) -> Option<Told> {
    lists.list(Kind::Component).clear();
    layout()
}

/// A count over a limit: by one, by some, or so that as one byte or two it would be a count in its limits.
fn count_over(limit: usize, rng: &mut Rng) -> usize {
    let within = rng.range(1, limit);
    match rng.index(16) {
        0 => 65_536 + within,
        1..=4 if limit < 256 => 256 + within,
        5..=8 => limit + rng.range(1, limit),
        _ => limit + 1,
    }
}

fn classes_over(lists: &mut Lists, class: u8, rng: &mut Rng) -> Option<Told> {
    let limit = match (class, lists.edition) {
        (1, _) => 32,
        (2, _) => 64,
        (_, 1) => 64,
        _ => 256,
    };
    let more = count_over(limit, rng) - lists.of_class(class);
    let mut record = lists.record(Kind::Component, 0).to_vec();
    record[0] = class;
    let place = rng.range(0, lists.count(Kind::Component));
    lists.insert(Kind::Component, place, &record.repeat(more));
    layout()
}

/// How many labels or users there may be.
fn most(lists: &Lists, kind: Kind) -> usize {
    let edition = match lists.edition {
        1 => Edition::One,
        _ => Edition::Two,
    };
    match kind {
        Kind::Label => edition.most_labels(),
        _ => edition.most_users(),
    }
}

fn over(lists: &mut Lists, kind: Kind, rng: &mut Rng) -> Option<Told> {
    let (count, size) = (count_over(most(lists, kind), rng), lists.size(kind));
    lists.list(kind).resize(count * size, 0);
    layout()
}

/// A class that there isn't.
fn unknown_class(rng: &mut Rng) -> u8 {
    match rng.index(4) {
        0 => 0,
        1 => 4,
        2 => 255,
        _ => rng.range(4, 255) as u8,
    }
}

/// Without the only level the counts come first. With one group less a lower group's parent may be none.
fn class_unknown(lists: &mut Lists, rng: &mut Rng) -> Option<Told> {
    let place = rng.place(0, lists.count(Kind::Component))?;
    let is_only_level = place == 0 && lists.of_class(1) == 1;
    let class = &mut lists.record_mut(Kind::Component, place)[0];
    let was_group = *class == 3;
    *class = unknown_class(rng);
    match (is_only_level, was_group) {
        (true, _) => layout(),
        (_, true) => Some(Told::Open),
        _ => told(Kind::Component, place),
    }
}

/// How many records of unknown classes: at times more than two bytes can count.
fn many(rng: &mut Rng) -> usize {
    match rng.index(24) {
        0 | 1 => 65_536 + rng.index(300),
        2..=4 => rng.range(300, 2_000),
        5..=10 => 1,
        _ => rng.range(1, 30),
    }
}

/// Records of classes that there aren't, at a place or at any.
fn unknown_at(lists: &mut Lists, place: Option<usize>, rng: &mut Rng) -> Option<Told> {
    let count = lists.count(Kind::Component);
    let place = place.unwrap_or_else(|| rng.index(count)).min(count);
    let model = rng.index(count);
    let mut records = lists.record(Kind::Component, model).repeat(many(rng));
    for record in records.chunks_mut(40) {
        record[0] = unknown_class(rng);
    }
    lists.insert(Kind::Component, place, &records);
    told(Kind::Component, place)
}

/// Two components of different classes change places.
fn classes_exchanged(lists: &mut Lists, rng: &mut Rng) -> Option<Told> {
    let count = lists.count(Kind::Component);
    let earlier = rng.place(0, count)?;
    let later = rng.place(earlier, count)?;
    let class = |place| lists.record(Kind::Component, place)[0];
    if class(earlier) == class(later) {
        return None;
    }
    lists.exchange(Kind::Component, earlier, later);
    told(Kind::Component, earlier)
}

/// The last class comes first.
fn classes_turned(lists: &mut Lists, _: &mut Rng) -> Option<Told> {
    let list = lists.list(Kind::Component);
    let mut records: Vec<Vec<u8>> = list.chunks(40).map(<[u8]>::to_vec).collect();
    if records.last()?[0] == 1 {
        return None;
    }
    records.sort_by_key(|record| 255 - record[0]);
    *list = records.concat();
    told(Kind::Component, 0)
}

/// Two that stand beside each other change places: then the later doesn't rise.
fn exchanged(lists: &mut Lists, kind: Kind, rng: &mut Rng) -> Option<Told> {
    let later = rng.place(1, lists.count(kind))?;
    let [one, two] = [later - 1, later].map(|place| lists.record(kind, place)[0]);
    if kind == Kind::Component && one != two {
        return None;
    }
    lists.exchange(kind, later - 1, later);
    told(kind, later)
}

/// The same record twice.
fn doubled(lists: &mut Lists, kind: Kind, rng: &mut Rng) -> Option<Told> {
    let (count, most) = (lists.count(kind), most(lists, kind));
    let place = rng.place(0, count).filter(|_| count < most)?;
    let record = lists.record(kind, place).to_vec();
    lists.insert(kind, place, &record);
    told(kind, place + 1)
}

fn emptied(lists: &mut Lists, kind: Kind) -> Option<Told> {
    lists.list(kind).clear();
    Some(Told::Accepted)
}

fn edition_other(lists: &mut Lists, _: &mut Rng) -> Option<Told> {
    lists.edition = if lists.edition == 1 { 2 } else { 1 };
    Some(Told::Open)
}

fn profile_other(lists: &mut Lists, _: &mut Rng) -> Option<Told> {
    lists.profile = u8::from(lists.profile == 0);
    Some(Told::Open)
}

/// One of the three classes in place of another: the counts change with it.
fn class_other(lists: &mut Lists, rng: &mut Rng) -> Option<Told> {
    let place = rng.place(0, lists.count(Kind::Component))?;
    let class = &mut lists.record_mut(Kind::Component, place)[0];
    *class = (*class % 3 + rng.index(2) as u8) % 3 + 1;
    Some(Told::Open)
}

fn component_dropped(lists: &mut Lists, rng: &mut Rng) -> Option<Told> {
    let place = rng.place(0, lists.count(Kind::Component))?;
    lists
        .list(Kind::Component)
        .drain(40 * place..40 * place + 40);
    Some(Told::Open)
}
