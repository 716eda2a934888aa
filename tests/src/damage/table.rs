//! How a list of kinds of damage is written.

/// Kinds of damage: for each file and the number that a well-formed image is then refused with, the
/// kind and the function that does it, with what else the function is told. The function gives the
/// refusal with its values, or nothing, and changes nothing, where the image lacks what it needs. Where
/// images of the draft's edition and profile can't be damaged so, it isn't called.
macro_rules! damages {
    (
        $(#[$about:meta])*
        $name:ident:
        $($number:literal $file:ident { $($kind:ident => $function:ident $(($told:expr))?,)* })*
    ) => {
        $(#[$about])*
        #[derive(Clone, Copy, Debug, PartialEq, Eq, PartialOrd, Ord)]
        pub enum $name { $($($kind,)*)* }

        impl $name {
            pub const ALL: &'static [$name] = &[$($($name::$kind,)*)*];

            /// The kinds that an edition has in a profile.
            pub fn of(variant: Variant) -> Vec<$name> {
                let kinds = $name::ALL.iter().copied();
                kinds.filter(|it| it.is_of(variant)).collect()
            }

            pub fn number(self) -> u32 {
                match self {
                    $($($name::$kind)|* => $number,)*
                }
            }

            pub fn apply(self, draft: &mut Draft, rng: &mut Rng) -> Option<Expected> {
                if !self.is_of(draft.policy.variant()) {
                    return None;
                }
                match self {
                    $($($name::$kind => $file::$function(draft, rng $(, $told)?),)*)*
                }
            }
        }
    };
}
