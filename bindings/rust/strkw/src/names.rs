//! Kinds of texts by name: what formats and encodings have in common.

// An enum of kinds of texts, with the name of each and the function of the library that checks a text for it.
macro_rules! kinds {
    (
        $(#[$head:meta])*
        $kind:ident $check:ty, called $called:literal;
        $($(#[$doc:meta])* $variant:ident $name:literal $call:ident,)*
    ) => {
        $(#[$head])*
        #[derive(Clone, Copy, Debug, PartialEq, Eq, Hash)]
        pub enum $kind {
            $($(#[$doc])* $variant,)*
        }

        impl $kind {
            /// All of them.
            pub const ALL: &'static [$kind] = &[$($kind::$variant),*];

            #[doc = $called]
            pub fn name(self) -> &'static str {
                match self {
                    $($kind::$variant => $name,)*
                }
            }

            // The function of the library that checks a text.
            fn check(self) -> $check {
                match self {
                    $($kind::$variant => strkw_sys::$call,)*
                }
            }
        }

        impl std::str::FromStr for $kind {
            type Err = crate::errors::UnknownName;

            fn from_str(name: &str) -> Result<$kind, crate::errors::UnknownName> {
                let found = $kind::ALL.iter().find(|kind| kind.name() == name);
                found.copied().ok_or_else(|| crate::errors::UnknownName(name.to_owned()))
            }
        }
    };
}

pub(crate) use kinds;
