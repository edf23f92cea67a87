//! Stand-in for the crate `bitflags`: the part of its macro that msvc-demangler 0.11.0 uses,
//! and `from_bits_retain`, by which the oracle makes a set of flags from a number.
#![no_std]

#[macro_export]
macro_rules! bitflags {
    (
        $(#[$set_attribute:meta])*
        pub struct $Set:ident: $Bits:ty {
            $( $(#[$flag_attribute:meta])* const $FLAG:ident = $value:expr; )*
        }
    ) => {
        $(#[$set_attribute])*
        pub struct $Set($Bits);

        impl $Set {
            $( $(#[$flag_attribute])* pub const $FLAG: $Set = $Set($value); )*

            pub const fn empty() -> Self {
                Self(0)
            }

            pub const fn bits(&self) -> $Bits {
                self.0
            }

            pub const fn from_bits_retain(bits: $Bits) -> Self {
                Self(bits)
            }

            pub const fn contains(&self, other: Self) -> bool {
                self.0 & other.0 == other.0
            }

            pub const fn intersects(&self, other: Self) -> bool {
                self.0 & other.0 != 0
            }
        }

        impl core::ops::BitOr for $Set {
            type Output = Self;

            fn bitor(self, other: Self) -> Self {
                Self(self.0 | other.0)
            }
        }
    };
}
