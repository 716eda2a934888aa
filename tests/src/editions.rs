//! Tests for each edition, and for each edition in each profile.

/// For functions that are told an edition: a test with each edition. The tests of edition 1 stand in the
/// module `edition_1` and those of edition 2 in `edition_2`, so that a run can be told one of them.
#[macro_export]
macro_rules! in_each_edition {
    ($($name:ident)*) => {
        $crate::tests_in! { edition_1, $crate::builder::Edition::One, $($name)* }
        $crate::tests_in! { edition_2, $crate::builder::Edition::Two, $($name)* }
    };
}

/// For functions that are told an edition and a profile: a test with each edition of the profile that there
/// was first, in the modules `tree_1` and `tree_2`, and of the release profile, in `release_1` and `release_2`.
#[macro_export]
macro_rules! in_each_variant {
    ($($name:ident)*) => {
        $crate::tests_in! { tree_1, $crate::builder::Edition::One.tree(), $($name)* }
        $crate::tests_in! { tree_2, $crate::builder::Edition::Two.tree(), $($name)* }
        $crate::in_each_release! { $($name)* }
    };
}

/// The same for the release profile alone.
#[macro_export]
macro_rules! in_each_release {
    ($($name:ident)*) => {
        $crate::tests_in! { release_1, $crate::builder::Edition::One.release(), $($name)* }
        $crate::tests_in! { release_2, $crate::builder::Edition::Two.release(), $($name)* }
    };
}

/// For functions that are told a profile: a test with each, in the modules `tree` and `release`.
#[macro_export]
macro_rules! in_each_profile {
    ($($name:ident)*) => {
        $crate::tests_in! { tree, $crate::builder::Profile::Tree, $($name)* }
        $crate::tests_in! { release, $crate::builder::Profile::Release, $($name)* }
    };
}

/// A module with a test for each function, which is told that value.
#[macro_export]
macro_rules! tests_in {
    ($module:ident, $told:expr, $($name:ident)*) => {
        mod $module {
            $(
                #[test]
                fn $name() {
                    super::$name($told);
                }
            )*
        }
    };
}
