//! Bits and codes of libnizwarf, as its header names them. `tools/dev/numbers.py` checks that they are the
//! same.

/// Bits of the field `has` of a call.
pub(crate) mod has {
    pub const HANDLE: u32 = 1 << 0;
    pub const OWNER: u32 = 1 << 1;
    pub const CONTEXT: u32 = 1 << 2;
    pub const GROUP: u32 = 1 << 3;
    pub const KILL_SUIDGID: u32 = 1 << 4;
    pub const WRITE_CACHE: u32 = 1 << 5;
    pub const FSYNC_FDATASYNC: u32 = 1 << 6;
    pub const RELEASE_FLUSH: u32 = 1 << 7;
    pub const RELEASE_FLOCK_UNLOCK: u32 = 1 << 8;
    pub const PLUS: u32 = 1 << 9;
    pub const LK_FLOCK: u32 = 1 << 10;
}

/// Kinds of answers: none, and those that are only errors.
pub(crate) mod kind {
    pub const NONE: u32 = 0;
    pub const ERROR_OR_NONE: u32 = 2;
    pub const ERROR: u32 = 15;
}

/// Codes that the functions return.
pub(crate) mod code {
    pub const OK: i32 = 0;
    pub const DECODE_MESSAGE: i32 = 1;
    pub const ENCODE_MESSAGE: i32 = 2;
    pub const MISSING_PARAMETER: i32 = 4;
    pub const INVALID_C_STRING: i32 = 5;
    pub const INVALID_HEADER_LENGTH: i32 = 7;
    pub const INVALID_XATTR_SIZE: i32 = 8;
    pub const MISSING_EXTENSION: i32 = 9;
    pub const OUT_OF_MEMORY: i32 = 10;
    pub const TOO_LONG: i32 = 13;
    pub const CALL: i32 = 15;
    pub const BAD_CALL: i32 = 16;
}
