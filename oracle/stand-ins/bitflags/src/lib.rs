//! Stands in for bitflags: the part that one struct of flags needs.

/// Declares a struct of flags with `bits`, `empty` and `contains`.
#[macro_export]
macro_rules! bitflags {
    (
        $(#[$outer:meta])*
        $vis:vis struct $name:ident: $repr:ty {
            $( $(#[$inner:meta])* const $flag:ident = $value:expr; )*
        }
    ) => {
        $(#[$outer])*
        $vis struct $name($repr);

        impl $name {
            $( $(#[$inner])* pub const $flag: Self = Self($value); )*

            /// No flag.
            pub const fn empty() -> Self {
                Self(0)
            }

            /// The flags as a number.
            pub const fn bits(&self) -> $repr {
                self.0
            }

            /// Whether all of `other`'s flags are set.
            pub const fn contains(&self, other: Self) -> bool {
                self.0 & other.0 == other.0
            }
        }
    };
}
