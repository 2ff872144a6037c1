//! Enums whose cases have a code on the wire.

/// An enum with `code`, `from_code` and `ALL`.
macro_rules! codes {
    ($(#[$doc:meta])* $name:ident { $($(#[$case_doc:meta])* $case:ident = $code:literal),+ $(,)? }) => {
        $(#[$doc])*
        #[derive(Debug, Clone, Copy, PartialEq, Eq, PartialOrd, Ord, Hash)]
        #[repr(u8)]
        pub enum $name {
            $($(#[$case_doc])* $case = $code),+
        }

        impl $name {
            /// Every case, by rising code.
            pub const ALL: &'static [Self] = &[$(Self::$case),+];

            /// The code on the wire.
            #[must_use]
            pub const fn code(self) -> u8 {
                self as u8
            }

            /// The case with this code, if one is declared.
            #[must_use]
            pub fn from_code(code: u8) -> Option<Self> {
                Self::ALL.iter().copied().find(|case| case.code() == code)
            }
        }
    };
}

pub(crate) use codes;
