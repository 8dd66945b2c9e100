//! Numbers of errors, as fuser has them.

use std::io;
use std::num::NonZeroI32;

/// The number of an error of Linux, as `errno(3)` names it.
///
/// ```
/// use nizwarf::fuser::Errno;
/// use std::io;
///
/// assert_eq!(Errno::from(io::Error::from_raw_os_error(2)).code(), Errno::ENOENT.code());
/// assert_eq!(Errno::from_i32(-2).code(), Errno::EIO.code());
/// ```
#[derive(Clone, Copy, Debug)]
pub struct Errno(NonZeroI32);

macro_rules! errors {
    ($($name:ident = $number:literal,)*) => {
        #[allow(missing_docs)] // errno(3) says what they mean
        impl Errno {
            $(pub const $name: Self = match NonZeroI32::new($number) {
                Some(number) => Self(number),
                None => panic!(),
            };)*
        }

        #[cfg(test)]
        const ALL: &[(&str, Errno)] = &[$((stringify!($name), Errno::$name),)*];
    };
}

errors! {
    EPERM = 1, ENOENT = 2, ESRCH = 3, EINTR = 4, EIO = 5, ENXIO = 6, E2BIG = 7, ENOEXEC = 8,
    EBADF = 9, ECHILD = 10, EAGAIN = 11, ENOMEM = 12, EACCES = 13, EFAULT = 14, ENOTBLK =
    15, EBUSY = 16, EEXIST = 17, EXDEV = 18, ENODEV = 19, ENOTDIR = 20, EISDIR = 21, EINVAL
    = 22, ENFILE = 23, EMFILE = 24, ENOTTY = 25, ETXTBSY = 26, EFBIG = 27, ENOSPC = 28,
    ESPIPE = 29, EROFS = 30, EMLINK = 31, EPIPE = 32, EDOM = 33, ERANGE = 34, EDEADLK = 35,
    ENAMETOOLONG = 36, ENOLCK = 37, ENOSYS = 38, ENOTEMPTY = 39, ELOOP = 40, EWOULDBLOCK =
    11, ENOMSG = 42, EIDRM = 43, EREMOTE = 66, ENOLINK = 67, EPROTO = 71, EMULTIHOP = 72,
    EBADMSG = 74, EOVERFLOW = 75, EILSEQ = 84, EUSERS = 87, ENOTSOCK = 88, EDESTADDRREQ =
    89, EMSGSIZE = 90, EPROTOTYPE = 91, ENOPROTOOPT = 92, EPROTONOSUPPORT = 93,
    ESOCKTNOSUPPORT = 94, EOPNOTSUPP = 95, EPFNOSUPPORT = 96, EAFNOSUPPORT = 97, EADDRINUSE
    = 98, EADDRNOTAVAIL = 99, ENETDOWN = 100, ENETUNREACH = 101, ENETRESET = 102,
    ECONNABORTED = 103, ECONNRESET = 104, ENOBUFS = 105, EISCONN = 106, ENOTCONN = 107,
    ESHUTDOWN = 108, ETOOMANYREFS = 109, ETIMEDOUT = 110, ECONNREFUSED = 111, EHOSTDOWN =
    112, EHOSTUNREACH = 113, EALREADY = 114, EINPROGRESS = 115, ESTALE = 116, EDQUOT = 122,
    ECANCELED = 125, EOWNERDEAD = 130, ENOTRECOVERABLE = 131, ENOTSUP = 95, ENODATA = 61,
}

impl Errno {
    /// There is no such extended attribute.
    pub const NO_XATTR: Self = Self::ENODATA;

    /// Returns the error of a number, or EIO if that is not positive.
    #[must_use]
    pub fn from_i32(err: i32) -> Self {
        NonZeroI32::new(err).filter(|number| number.get() > 0).map_or(Self::EIO, Self)
    }

    /// Returns the number.
    #[must_use]
    pub fn code(self) -> i32 {
        self.0.get()
    }
}

impl From<io::Error> for Errno {
    /// Returns the error of its number, or EIO if it has none.
    fn from(error: io::Error) -> Self {
        Self::from_i32(error.raw_os_error().unwrap_or(0))
    }
}

impl From<io::ErrorKind> for Errno {
    /// Returns EIO: a kind has no number.
    fn from(kind: io::ErrorKind) -> Self {
        io::Error::from(kind).into()
    }
}

impl From<Errno> for i32 {
    fn from(error: Errno) -> Self {
        error.code()
    }
}

impl From<Errno> for io::Error {
    fn from(error: Errno) -> Self {
        io::Error::from_raw_os_error(error.code())
    }
}

#[cfg(test)]
mod tests {
    use super::*;

    #[test]
    fn names_are_those_of_this_crate() {
        for (name, error) in ALL {
            let here = format!("{:?}", crate::errno::answered(&(*error).into()));
            let is_named = !here.starts_with("Errno(");
            assert!(!is_named || &here == name || matches!(*name, "EWOULDBLOCK" | "ENOTSUP"), "{name}");
        }
        assert_eq!(Errno::ENOTRECOVERABLE.code(), 131);
        assert_eq!(Errno::from(io::ErrorKind::NotFound).code(), 5);
    }
}
