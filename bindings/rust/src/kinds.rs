//! The kinds of answers: the type parameters of [`To`](crate::To).
#![forbid(unsafe_code)]

/// Declares the kinds of answers.
macro_rules! kinds {
    ($($(#[$about:meta])* $name:ident)*) => {
        $($(#[$about])* #[derive(Debug)] pub enum $name {})*
    };
}

kinds! {
    /// No reply.
    NoReply
    /// No reply, and the options are reset.
    Destroy
    /// Success, or an error.
    Status
    /// The number of bytes of data that were put into the reply buffer.
    Data
    /// Options of the session.
    Init
    /// An entry.
    Entry
    /// Attributes, and how long they are valid.
    Attr
    /// An open file or directory.
    Open
    /// An entry, and its open file.
    Create
    /// Statistics of the file system.
    Statfs
    /// The target of a symbolic link.
    Bytes
    /// An extended attribute or a list of their names, or its size.
    BytesOrSize
    /// An offset in a file.
    Offset
    /// The number of bytes that were written, in 32 bits.
    Count
    /// Items of a directory listing.
    Directory
    /// Only an error.
    Error
    /// A conflicting lock.
    Lock
    /// The result of an IOCTL.
    Ioctl
    /// Events of `poll(2)`.
    Poll
    /// Attributes with the time of birth, and how long they are valid.
    Statx
    /// The number of bytes that were copied, in 64 bits.
    Count64
}
