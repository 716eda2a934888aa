//! Parents of groups without rings, in several forms.

use crate::rng::Rng;
use std::cmp::Reverse;

/// How many groups have subgroups in a wide tree.
const HUBS: usize = 2;

#[derive(Clone, Copy, Debug, PartialEq, Eq)]
pub enum Tree {
    /// Each group may have a parent that comes before it in a random order.
    Any,
    /// One chain through all groups in a random order.
    Chain,
    /// One chain in which each parent stands right before its subgroup.
    ParentLower,
    /// One chain in which each parent stands right after its subgroup.
    ParentHigher,
    /// All groups but two stand right under one of these.
    Wide,
}

impl Tree {
    pub const ALL: [Tree; 5] = [
        Tree::Any,
        Tree::Chain,
        Tree::ParentLower,
        Tree::ParentHigher,
        Tree::Wide,
    ];

    /// Mostly any.
    fn one(rng: &mut Rng) -> Tree {
        match rng.index(4) {
            0 => *rng.pick(&Tree::ALL[1..]),
            _ => Tree::Any,
        }
    }

    /// The parent of each of so many groups, in the form that is told or in one that is drawn. Parents
    /// stand at lower and at higher places.
    pub fn parents(told: Option<Tree>, count: usize, rng: &mut Rng) -> Vec<Option<u16>> {
        let mut order: Vec<usize> = (0..count).collect();
        rng.shuffle(&mut order);
        let tree = told.unwrap_or_else(|| Tree::one(rng));
        match tree {
            Tree::ParentLower => order.sort(),
            Tree::ParentHigher => order.sort_by_key(|&place| Reverse(place)),
            _ => {}
        }
        let mut parents = vec![None; count];
        for at in 1..count {
            let before = match tree {
                Tree::Any => Some(rng.index(at)).filter(|_| !rng.once_in(4)),
                Tree::Wide => (at >= HUBS).then(|| rng.index(HUBS)),
                _ => Some(at - 1),
            };
            parents[order[at]] = before.map(|before| order[before] as u16);
        }
        parents
    }
}
