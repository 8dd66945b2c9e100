//! Structs that are shared with the library, with C's layout; and methods that return parts of a struct.
#![forbid(unsafe_code)]

use std::marker::PhantomData;

/// A type that has a value whose bytes are all 0.
pub(crate) trait Zero {
    const ZERO: Self;
}

macro_rules! zeros {
    ($($type:ty: $zero:expr;)*) => {
        $(impl Zero for $type {
            const ZERO: Self = $zero;
        })*
    };
}

zeros! {
    u16: 0;
    u32: 0;
    i32: 0;
    u64: 0;
    usize: 0;
    *const u8: std::ptr::null();
}

impl<T> Zero for PhantomData<T> {
    const ZERO: Self = PhantomData;
}

/// Declares structs with C's layout, and `NONE` of each, whose fields are 0. Before each field is its offset
/// in the header, and after the name of each struct its size. Wrong numbers do not compile: the sum of the
/// fields before a field must be its offset, and the sum of all fields the size of the struct, so that there
/// is no padding.
macro_rules! records {
    ($(
        $(#[$about:meta])*
        $shown:vis struct $name:ident $(<$life:lifetime>)?: $size:literal {
            $($(#[$field_about:meta])* [$at:literal] $field_shown:vis $field:ident: $type:ty,)*
        }
    )*) => {$(
        $(#[$about])*
        #[repr(C)]
        #[derive(Clone, Copy)]
        $shown struct $name $(<$life>)? {
            $($(#[$field_about])* $field_shown $field: $type,)*
        }

        impl $(<$life>)? $name $(<$life>)? {
            /// All fields 0.
            #[allow(dead_code)] // not each is used
            pub(crate) const NONE: Self = Self { $($field: <$type as $crate::record::Zero>::ZERO,)* };

            #[allow(dead_code)] // older compilers do not count uses in unnamed constants
            const LAID_OUT: () = {
                let mut at = 0;
                $(
                    assert!(at == $at);
                    at += std::mem::size_of::<$type>();
                )*
                assert!(at == $size && std::mem::size_of::<Self>() == $size);
            };
        }

        impl $(<$life>)? $crate::record::Zero for $name $(<$life>)? {
            const ZERO: Self = Self::NONE;
        }

        const _: () = $name::LAID_OUT;
    )*};
}

/// Declares methods that return a part of their struct.
macro_rules! getters {
    ($($(#[$about:meta])* $name:ident: $type:ty = |$it:ident| $value:expr;)*) => {$(
        $(#[$about])*
        #[must_use]
        pub fn $name(&self) -> $type {
            let $it = self;
            $value
        }
    )*};
}
