//! The kinds of damage by themselves: each applies often, and the model then finds exactly what the
//! damage says.

use super::{Combined, Damage, Draft, Expected};
use crate::builder::{random, Edition, Sizes, Variant};
use crate::model::{check, faults, first_fault, Fault, Refusal};
use crate::rng::Rng;
use crate::{in_each_edition, in_each_variant};
use std::collections::BTreeSet;

fn draft(variant: Variant, seed: u64, rng: &mut Rng) -> Draft {
    let sizes = match seed {
        0..=4 => Sizes::any(variant, rng),
        5..=39 => Sizes::medium(variant, rng),
        40..=139 => Sizes::several_blocks(variant, rng),
        _ => Sizes::small(variant, rng),
    };
    Draft::new(random(sizes, rng))
}

/// Damages policies of an edition and a profile by many seeds, and shows the damaged images that are as they
/// should be.
fn try_often(
    variant: Variant,
    name: &str,
    number: u32,
    apply: impl Fn(&mut Draft, &mut Rng) -> Option<Expected>,
    mut see: impl FnMut(&Draft, Expected),
) {
    let mut applied = 0;
    for seed in 0..300 {
        let case = format!("{name}, {variant:?}, seed {seed}");
        let mut rng = Rng::new(seed);
        let mut draft = draft(variant, seed, &mut rng);
        let Some(expected) = apply(&mut draft, &mut rng) else {
            assert_eq!(check(&draft.image), Ok(()), "{case}");
            continue;
        };
        applied += 1;
        assert_eq!(expected.refusal().number(), number, "{case}");
        assert_eq!(check(&draft.image), Err(expected.refusal()), "{case}");
        if let Expected::Fault(fault) = expected {
            assert_eq!(first_fault(&draft.image), Some(fault), "{case}");
        }
        see(&draft, expected);
    }
    assert!(applied >= 25, "{name}, {variant:?}: {applied} times");
}

fn keys(image: &[u8]) -> usize {
    let keys: BTreeSet<_> = faults(image).iter().map(Fault::key).collect();
    keys.len()
}

fn damages_are_refused(variant: Variant) {
    let in_header = Expected::Fault(Fault::Layout { block: 0 });
    for damage in Damage::of(variant) {
        let apply = |draft: &mut Draft, rng: &mut Rng| damage.apply(draft, rng);
        let name = format!("{damage:?}");
        try_often(variant, &name, damage.number(), apply, |_, expected| {
            let hides = matches!(expected, Expected::Refused(_)) || expected == in_header;
            assert_eq!(damage.hides_the_rest(), hides, "{name}");
            let is_late = matches!(
                expected,
                Expected::Fault(Fault::Ring { .. } | Fault::Below { .. })
            );
            assert_eq!(damage.comes_late(), is_late, "{name}");
        });
    }
}

/// Of two faults one is told, and the other is there too.
fn combined_damages_are_refused(variant: Variant) {
    for damage in Combined::of(variant) {
        let name = format!("{damage:?}");
        let apply = |draft: &mut Draft, rng: &mut Rng| damage.apply(draft, rng);
        try_often(variant, &name, damage.number(), apply, |draft, _| {
            assert!(keys(&draft.image) >= 2, "{name}");
        });
    }
}

/// The group that is told leads into a ring and doesn't stand on it.
fn the_lowest_group_need_not_stand_on_the_ring(edition: Edition) {
    let damage = Damage::LowerLeadsIntoRing;
    let apply = |draft: &mut Draft, rng: &mut Rng| damage.apply(draft, rng);
    try_often(edition.tree(), "", 35, apply, |draft, expected| {
        let Refusal::Ring(group) = expected.refusal() else {
            panic!("{expected:?}");
        };
        let parent = draft.policy.groups[group].parent.expect("it leads on");
        let above = draft.policy.with_ancestors(usize::from(parent));
        assert!(!above.has(group), "group {group} stands on the ring");
    });
}

in_each_variant! {
    damages_are_refused
    combined_damages_are_refused
}

in_each_edition! {
    the_lowest_group_need_not_stand_on_the_ring
}

/// A kind that an edition in a profile has not is never done to it, and each is of some.
#[test]
fn damage_of_one_edition_or_profile_alone() {
    let left_out = Variant::ALL.map(|variant| Damage::ALL.len() - Damage::of(variant).len());
    // Two kinds are only of edition 2, and COMPACCESS is at fault but in a tree of edition 1. Six kinds are only
    // of the release profile, and nine only of the other.
    assert_eq!(left_out, [3 + 6, 6, 2 + 9, 9]);
    let left_out = Variant::ALL.map(|variant| Combined::ALL.len() - Combined::of(variant).len());
    assert_eq!(left_out, [3, 3, 7, 7]);
    for variant in Variant::ALL {
        for seed in 0..100 {
            let mut rng = Rng::new(seed);
            let mut draft = draft(variant, seed, &mut rng);
            let whole = draft.image.clone();
            for damage in Damage::ALL.iter().filter(|it| !it.is_of(variant)) {
                assert_eq!(damage.apply(&mut draft, &mut rng), None, "{damage:?}");
            }
            for damage in Combined::ALL.iter().filter(|it| !it.is_of(variant)) {
                assert_eq!(damage.apply(&mut draft, &mut rng), None, "{damage:?}");
            }
            assert_eq!(draft.image, whole, "{variant:?}, seed {seed}");
        }
    }
}
