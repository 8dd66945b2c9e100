//! Names as the standard library's paths have them.
#![forbid(unsafe_code)]

use std::ffi::{CStr, OsStr};
use std::os::unix::ffi::OsStrExt;

/// Converts a name that the client sent, so that it can be compared with names of [`std::fs`] or joined to a
/// path.
///
/// ```
/// use nizwarf::AsOsStr;
/// use std::ffi::CStr;
/// use std::path::Path;
///
/// fn path_of(folder: &Path, name: &CStr) -> std::path::PathBuf {
///     folder.join(name.as_os_str())
/// }
///
/// let name = CStr::from_bytes_with_nul(b"hello\0").unwrap();
/// assert_eq!(path_of(Path::new("/srv"), name), Path::new("/srv/hello"));
/// ```
pub trait AsOsStr {
    /// Returns the name without its NUL. It may have any other bytes, because Linux does not require UTF-8.
    fn as_os_str(&self) -> &OsStr;
}

impl AsOsStr for CStr {
    fn as_os_str(&self) -> &OsStr {
        OsStr::from_bytes(self.to_bytes())
    }
}
