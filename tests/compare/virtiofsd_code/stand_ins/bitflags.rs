//! Stands for the crate `bitflags`, 1.x: its macro, with the calls that virtiofsd makes.
#[macro_export]
macro_rules! bitflags {
    (
        $(#[$outer:meta])*
        pub struct $Name:ident: $T:ty {
            $( $(#[$inner:meta])* const $Flag:ident = $value:expr; )*
        }
    ) => {
        $(#[$outer])*
        #[derive(Copy, Clone, Debug, PartialEq, Eq, PartialOrd, Ord, Hash)]
        pub struct $Name { bits: $T }

        #[allow(dead_code)]
        impl $Name {
            $( $(#[$inner])* pub const $Flag: Self = Self { bits: $value }; )*
            pub const fn empty() -> Self { Self { bits: 0 } }
            pub const fn all() -> Self { Self { bits: 0 $( | $value )* } }
            pub const fn bits(&self) -> $T { self.bits }
            pub const fn from_bits_truncate(bits: $T) -> Self {
                Self { bits: bits & Self::all().bits }
            }
            pub const fn contains(&self, other: Self) -> bool {
                self.bits & other.bits == other.bits
            }
        }
        impl ::core::ops::BitOr for $Name {
            type Output = Self;
            fn bitor(self, o: Self) -> Self { Self { bits: self.bits | o.bits } }
        }
        impl ::core::ops::BitAnd for $Name {
            type Output = Self;
            fn bitand(self, o: Self) -> Self { Self { bits: self.bits & o.bits } }
        }
    };
}
