//! Numbers of errors.
#![forbid(unsafe_code)]

use std::fmt;
use std::io;

/// The number of an error of Linux on x86-64, as `errno(3)` names it.
///
/// ```
/// use nizwarf::Errno;
/// use std::io;
///
/// fn find(name: &str) -> io::Result<u64> {
///     if name == "hello" {
///         Ok(2)
///     } else {
///         Err(Errno::ENOENT.into())
///     }
/// }
///
/// assert_eq!(find("none").unwrap_err().raw_os_error(), Some(Errno::ENOENT.number()));
/// assert_eq!(find("none").unwrap_err().kind(), io::ErrorKind::NotFound);
/// ```
#[derive(Clone, Copy, PartialEq, Eq, Hash)]
pub struct Errno(i32);

macro_rules! errors {
    ($($name:ident = $number:literal,)*) => {
        #[allow(missing_docs)] // errno(3) says what they mean
        impl Errno {
            $(pub const $name: Self = Self($number);)*
        }

        impl fmt::Debug for Errno {
            fn fmt(&self, f: &mut fmt::Formatter<'_>) -> fmt::Result {
                match self.0 {
                    $($number => f.write_str(stringify!($name)),)*
                    number => write!(f, "Errno({number})"),
                }
            }
        }
    };
}

errors! {
    EPERM = 1, ENOENT = 2, EINTR = 4, EIO = 5, ENXIO = 6, E2BIG = 7, EBADF = 9, EAGAIN = 11,
    ENOMEM = 12, EACCES = 13, EBUSY = 16, EEXIST = 17, EXDEV = 18, ENODEV = 19, ENOTDIR = 20,
    EISDIR = 21, EINVAL = 22, ENFILE = 23, EMFILE = 24, ENOTTY = 25, ETXTBSY = 26, EFBIG = 27,
    ENOSPC = 28, ESPIPE = 29, EROFS = 30, EMLINK = 31, EPIPE = 32, ERANGE = 34, EDEADLK = 35,
    ENAMETOOLONG = 36, ENOLCK = 37, ENOSYS = 38, ENOTEMPTY = 39, ELOOP = 40, ENODATA = 61,
    EPROTO = 71, EOVERFLOW = 75, EOPNOTSUPP = 95, ENOTCONN = 107, ETIMEDOUT = 110, ESTALE = 116, EUCLEAN = 117,
    EDQUOT = 122, ECANCELED = 125,
}

impl Errno {
    /// Returns the number.
    #[must_use]
    pub const fn number(self) -> i32 {
        self.0
    }

    /// Whether an error is this one.
    pub(crate) fn is(self, error: &io::Error) -> bool {
        error.raw_os_error() == Some(self.0)
    }
}

impl From<Errno> for io::Error {
    fn from(errno: Errno) -> Self {
        io::Error::from_raw_os_error(errno.0)
    }
}

/// The largest number that Linux takes in a reply.
const MAX: i32 = 511;

/// The number with which an error is answered: EIO for one without a number, and for numbers that Linux does
/// not take.
pub(crate) fn answered(error: &io::Error) -> Errno {
    let number = error.raw_os_error().filter(|number| (1..=MAX).contains(number));
    number.map_or(Errno::EIO, Errno)
}

/// An error with the number of its kind, if it has none and there is one.
pub(crate) fn numbered(error: io::Error) -> io::Error {
    if error.raw_os_error().is_some() {
        return error;
    }
    let errno = match error.kind() {
        io::ErrorKind::NotFound => Errno::ENOENT,
        io::ErrorKind::PermissionDenied => Errno::EACCES,
        io::ErrorKind::AlreadyExists => Errno::EEXIST,
        io::ErrorKind::WouldBlock => Errno::EAGAIN,
        io::ErrorKind::InvalidInput => Errno::EINVAL,
        io::ErrorKind::TimedOut => Errno::ETIMEDOUT,
        io::ErrorKind::Interrupted => Errno::EINTR,
        io::ErrorKind::Unsupported => Errno::EOPNOTSUPP,
        io::ErrorKind::OutOfMemory => Errno::ENOMEM,
        _ => return error,
    };
    errno.into()
}

/// An error without a number, which is answered EIO.
pub(crate) fn no_number() -> io::Error {
    io::Error::from(io::ErrorKind::Other)
}

#[cfg(test)]
mod tests {
    use super::*;

    #[test]
    fn linux_takes_each_answered_number() {
        for (number, expected) in
            [(1, 1), (511, 511), (512, 5), (524, 5), (i32::MAX, 5), (0, 5), (-2, 5), (i32::MIN, 5)]
        {
            let error = io::Error::from_raw_os_error(number);
            assert_eq!(answered(&error).number(), expected);
        }
        let number = numbered(io::Error::from_raw_os_error(600));
        assert_eq!(number.raw_os_error(), Some(600));
        for (kind, expected) in [
            (io::ErrorKind::NotFound, Errno::ENOENT),
            (io::ErrorKind::PermissionDenied, Errno::EACCES),
            (io::ErrorKind::Unsupported, Errno::EOPNOTSUPP),
            (io::ErrorKind::UnexpectedEof, Errno::EIO),
            (io::ErrorKind::Other, Errno::EIO),
        ] {
            assert_eq!(answered(&numbered(kind.into())), expected);
            assert_eq!(answered(&kind.into()), Errno::EIO);
        }
    }

    #[test]
    fn names_are_those_of_the_numbers() {
        assert_eq!(format!("{:?} {:?}", Errno::ENOTEMPTY, Errno(200)), "ENOTEMPTY Errno(200)");
        // As the standard library names them.
        for (errno, kind) in [
            (Errno::ENOENT, io::ErrorKind::NotFound),
            (Errno::EACCES, io::ErrorKind::PermissionDenied),
            (Errno::EEXIST, io::ErrorKind::AlreadyExists),
            (Errno::EINVAL, io::ErrorKind::InvalidInput),
            (Errno::ENOSYS, io::ErrorKind::Unsupported),
        ] {
            assert_eq!(io::Error::from(errno).kind(), kind);
        }
    }
}
