//! virtiofsd's own `descriptor_utils`, `filesystem`, `fuse` and `server`, over lists of byte segments.
//!
//! `build.sh` puts these four beside this file. All else is written by hand: what they take from elsewhere
//! in virtiofsd, the file systems that they are run over, and the requests.
#![allow(
    dead_code,
    unused_imports,
    unused_variables,
    non_camel_case_types,
    mismatched_lifetime_syntaxes
)]

// Log lines are left out, but for the check of their arguments.
macro_rules! debug { ($($t:tt)*) => { if false { let _ = format!($($t)*); } } }
macro_rules! error { ($($t:tt)*) => { if false { let _ = format!($($t)*); } } }

pub mod macros {
    macro_rules! enum_value {
        (
            $(#[$meta:meta])*
            $vis:vis enum $Name:ident: $T:ty { $( $V:ident = $n:expr, )* }
        ) => {
            $(#[$meta])*
            #[repr(u32)]
            $vis enum $Name { $( $V = $n, )* }
            impl std::convert::TryFrom<$T> for $Name {
                type Error = ();
                fn try_from(v: $T) -> std::result::Result<Self, ()> {
                    match v { $( $n => Ok(Self::$V), )* _ => Err(()) }
                }
            }
        };
    }
    pub(crate) use enum_value;
}
pub mod soft_idmap {
    macro_rules! id { ($($N:ident)*) => { $(
        #[repr(transparent)]
        #[derive(Copy, Clone, Debug, Default, PartialEq, Eq)]
        pub struct $N(u32);
        impl From<u32> for $N { fn from(n: u32) -> Self { Self(n) } }
        impl $N { pub fn into_inner(self) -> u32 { self.0 } }
    )* } }
    id!(GuestUid GuestGid HostUid HostGid);
}
pub mod oslib {
    #[derive(Copy, Clone, Debug)]
    pub struct WritevFlags(pub i32);
}
pub mod passthrough {
    pub mod util {
        pub fn einval() -> std::io::Error {
            std::io::Error::from_raw_os_error(libc::EINVAL)
        }
    }
}
pub mod file_traits {
    use crate::oslib::WritevFlags;
    use std::io;
    use vm_memory::{bitmap::BitmapSlice, VolatileSlice};
    pub trait FileReadWriteAtVolatile<B: BitmapSlice> {
        fn read_vectored_at_volatile(
            &self,
            bufs: &[&VolatileSlice<B>],
            off: u64,
        ) -> io::Result<usize>;
        fn write_vectored_at_volatile(
            &self,
            bufs: &[&VolatileSlice<B>],
            off: u64,
            flags: Option<WritevFlags>,
        ) -> io::Result<usize>;
    }
}

macro_rules! errors { ($($Name:ident$(($T:ty))? = $code:literal,)*) => {
    #[derive(Debug)]
    pub enum Error { $($Name$(($T))?,)* }
    impl Error {
        /// The name and the number of an error, without what it carries.
        pub fn name_and_code(&self) -> (&'static str, u32) {
            match self { $(Self::$Name { .. } => (stringify!($Name), $code),)* }
        }
    }
} }
errors! {
    DecodeMessage(std::io::Error) = 1,
    EncodeMessage(std::io::Error) = 2,
    FlushMessage(std::io::Error) = 3,
    MissingParameter = 4,
    InvalidCString(std::ffi::FromBytesWithNulError) = 5,
    InvalidCString2(std::ffi::FromVecWithNulError) = 6,
    InvalidHeaderLength = 7,
    InvalidXattrSize((u32, usize)) = 8,
    MissingExtension = 9,
}
pub type Result<T> = std::result::Result<T, Error>;

// virtiofsd's own.
pub mod descriptor_utils;
pub mod filesystem;
pub mod fuse;
pub mod server;

pub mod batch;
pub mod file;
pub mod memfs;
pub mod noted;
pub mod nullfs;
pub mod request;
pub mod seededfs;
pub mod seeds;
pub mod told;
