//! Damage to well-formed images: for each rule of an image at least one change that breaks it and,
//! where the rule allows it, nothing else; and pairs of faults by which one is told and not the
//! other. Checks are mended where the rule isn't the check itself.

#[macro_use]
mod table;

mod blocks;
mod combined;
mod components;
mod draft;
mod header;
mod labels;
mod lengths;
mod names;
mod places;
mod release;
mod rings;
mod users;

pub use draft::{Draft, Expected};

use crate::builder::{Edition, Profile, Variant};
use crate::rng::Rng;
use combined::{COMPONENTS, LABELS, USERS};
use release::Containing;
use users::Inclusion;

damages! {
    /// One fault.
    Damage:
    1 lengths {
        Empty => empty,
        Cut => cut,
        Extended => extended,
        OverLong => over_long,
    }
    2 lengths {
        CheckA => check_a,
        CheckB => check_b,
        CheckA255 => check_a_255,
        CheckB255 => check_b_255,
        CheckNotMended => not_mended,
        BlockPlace => place,
        BlocksExchanged => exchanged,
    }
    31 header {
        HeaderKind => kind,
        HeaderRecords => records,
        EditionUnknown => edition_unknown,
        EditionOther => edition_other,
        LevelsNone => levels_none,
        LevelsOver => levels_over,
        CompartmentsOver => compartments_over,
        GroupsOver => groups_over,
        GroupCountOver => group_count_over,
        OldGroupCount => old_group_count,
        UsersOver => users_over,
        LabelsOver => labels_over,
        HeaderUnused => unused,
        BlockMissing => block_missing,
        BlockExtra => block_extra,
        CountUnfit => count_unfit,
    }
    31 release {
        ProfileUnknown => profile_unknown,
    }
    31 blocks {
        BlockKind => kind,
        BlockKindOrder => kind_order,
        BlockRecords => records,
        BlockRecordsByHeader => records_by_header,
        BlockUnpacked => unpacked,
        BlockAfterRecords => after_records,
    }
    32 components {
        Class => class,
        ClassOrder => class_order,
        ClassByHeader => class_by_header,
        NameRepeated => name_repeated,
        NumberOver => number_over,
        NumberEqual => number_equal,
        NumberLower => number_lower,
        LevelParent => level_parent,
        CompartmentParent => compartment_parent,
        GroupParentMissing => group_parent_missing,
        ParentOfOtherEdition => parent_of_other_edition,
        ParentHighByte => parent_high_byte,
        ComponentUnused => unused,
        EditionOtherFits => edition_other_fits,
    }
    32 release {
        GroupParent => group_parent,
        TreeToldRelease => tree_told_release,
    }
    32 names {
        NameEmpty => empty(names::component),
        NameLong => long(names::component),
        NameByte => bad_byte(names::component),
        NameSmall => small(names::component),
        NameRest => rest(names::component),
    }
    33 labels {
        TagZero => tag_zero,
        TagOver => tag_over,
        TagEqual => tag_equal,
        TagLower => tag_lower,
        LabelLevelMissing => level_missing,
        LabelCompartmentMissing => compartment_missing,
        LabelGroupMissing => group_missing,
        LabelUnused => unused,
    }
    34 names {
        UserNameEmpty => empty(names::user),
        UserNameLong => long(names::user),
        UserNameByte => bad_byte(names::user),
        UserNameSmall => small(names::user),
        UserNameRest => rest(names::user),
    }
    34 users {
        UserNameEqual => name_equal,
        UserNameLower => name_lower,
        UserNameBegins => name_begins,
        Privilege128 => privilege_128,
        Compaccess => compaccess,
        MinimumOverRow => minimum_over_row,
        RowOverDefault => row_over_default,
        DefaultOverMaximum => default_over_maximum,
        MaximumMissing => maximum_missing,
        MinimumMissing => minimum_missing,
        DefaultMissing => default_missing,
        RowLevelMissing => row_missing,
        UserCompartmentMissing => compartment_missing,
        UserGroupMissing => group_missing,
        WriteCompartment => compartment(Inclusion::WriteInRead),
        DefaultCompartment => compartment(Inclusion::DefaultInRead),
        RowCompartmentByDefault => compartment(Inclusion::RowInDefault),
        RowCompartmentByWrite => compartment(Inclusion::RowInWrite),
        UserUnused => unused,
    }
    35 rings {
        RingOfOne => of_one,
        RingOfTwo => of_two,
        RingLong => long,
        LowerLeadsIntoRing => lower_leads_in,
    }
    34 users {
        WriteGroup => group(Inclusion::WriteInRead),
        DefaultGroup => group(Inclusion::DefaultInRead),
        RowGroupByDefault => group(Inclusion::RowInDefault),
        RowGroupByWrite => group(Inclusion::RowInWrite),
    }
    34 release {
        DefaultLacksGroup => groups(Containing::DefaultHasRead),
        RowLacksGroup => groups(Containing::RowHasDefault),
        WriteLacksGroup => groups(Containing::WriteHasRead),
        WriteHasOtherGroup => groups(Containing::ReadHasWrite),
        ReleaseToldTree => release_told_tree,
    }
}

impl Damage {
    /// Whether images of an edition in a profile can be damaged so. Byte 7 of the header and byte 35 of a
    /// component are other things in edition 1. COMPACCESS may be held where there is such a privilege. The
    /// release profile has no parents, and other rules of groups.
    pub fn is_of(self, variant: Variant) -> bool {
        use Damage::*;
        match self {
            OldGroupCount | ParentHighByte => variant.edition == Edition::Two,
            Compaccess => !variant.has_compaccess(),
            RingOfOne | RingOfTwo | RingLong | LowerLeadsIntoRing | WriteGroup | DefaultGroup
            | RowGroupByDefault | RowGroupByWrite | TreeToldRelease => {
                variant.profile == Profile::Tree
            }
            GroupParent | DefaultLacksGroup | RowLacksGroup | WriteLacksGroup
            | WriteHasOtherGroup | ReleaseToldTree => variant.profile == Profile::Release,
            _ => true,
        }
    }

    /// Whether no fault after block 0 is told beside this one. Such kinds stand first.
    pub fn hides_the_rest(self) -> bool {
        self < Damage::BlockKind
    }

    /// Whether any fault of a block or record is told before this one. Such kinds stand last.
    pub fn comes_late(self) -> bool {
        self >= Damage::RingOfOne
    }
}

damages! {
    /// Two faults.
    Combined:
    31 combined {
        ComponentWithLayout => with_layout(COMPONENTS),
        LabelWithLayout => with_layout(LABELS),
        UserWithLayout => with_layout(USERS),
        ComponentAfterLayout => after_layout(COMPONENTS),
        LabelAfterLayout => after_layout(LABELS),
        UserAfterLayout => after_layout(USERS),
        LayoutAndRing => layout_and_ring,
        LayoutAndBelow => layout_and_below,
    }
    32 combined {
        TwoComponents => two_in_block(COMPONENTS),
        ComponentsApart => two_blocks(COMPONENTS),
        ComponentBeforeLayout => before_layout(COMPONENTS),
        ComponentAndRing => record_and_ring(COMPONENTS),
        ClassAndClash => class_and_clash,
        ParentMissingAndRing => parent_missing_and_ring,
        ParentAndBelow => parent_and_below,
        ParentAndHolder => parent_and_holder,
    }
    33 combined {
        TwoLabels => two_in_block(LABELS),
        LabelsApart => two_blocks(LABELS),
        LabelBeforeLayout => before_layout(LABELS),
        LabelAndRing => record_and_ring(LABELS),
        LabelAndBelow => label_and_below,
    }
    34 combined {
        TwoUsers => two_in_block(USERS),
        UsersApart => two_blocks(USERS),
        UserBeforeLayout => before_layout(USERS),
        UserAndRing => record_and_ring(USERS),
        BelowAndLaterUser => below_and_later_user,
        TwoBelow => two_below,
        HolderAndBelow => holder_and_below,
    }
    35 combined {
        RingAndBelow => ring_and_below,
    }
    35 rings {
        TwoRings => two,
    }
}

impl Combined {
    /// The same of two faults. The release profile has no rings.
    pub fn is_of(self, variant: Variant) -> bool {
        use Combined::*;
        match self {
            LayoutAndRing | ComponentAndRing | ParentMissingAndRing | LabelAndRing
            | UserAndRing | RingAndBelow | TwoRings => variant.profile == Profile::Tree,
            ParentAndBelow | HolderAndBelow | ParentAndHolder => {
                variant.profile == Profile::Release
            }
            _ => true,
        }
    }
}

#[cfg(test)]
mod tests;
