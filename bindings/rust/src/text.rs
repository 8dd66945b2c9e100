//! Messages as lines of text, and a check of requests.
#![forbid(unsafe_code)]

use crate::codec::{Refusal, Session};
use crate::ffi;
use crate::flags::FsOptions;
use crate::numbers::code;

/// Returns a request as a line of text without a newline: its opcode and its fields by name. `options` are
/// those that were agreed on ([`Session::options`]).
///
/// The line has only printable ASCII: in a name, any other byte, a quote and a backslash are printed as `\x`
/// and two hex digits. The line of a request that is refused ends with `refused=` and the reason.
///
/// ```
/// use nizwarf::{print_request, FsOptions};
///
/// // Request number 3, a LOOKUP of a name in node 1.
/// let mut request = *b"\x2c\0\0\0\x01\0\0\0\x03\0\0\0\0\0\0\0________________________a\x1b!\0";
/// request[16..40].fill(0);
/// request[16] = 1;
/// let line = print_request(&request, FsOptions::empty());
/// assert_eq!(line, r#"LOOKUP unique=3 node=1 uid=0 gid=0 pid=0 name="a\x1b!""#);
/// ```
#[must_use]
pub fn print_request(request: &[u8], options: FsOptions) -> String {
    text_of(&ffi::request_line(request, options.bits()))
}

/// Returns the reply to a request as a line of text, in the same way. The first 48 bytes of the request are
/// enough: they say which record the reply has.
///
/// ```
/// let lookup = b"\x2a\0\0\0\x01\0\0\0\x03\0\0\0\0\0\0\0\x01\0\0\0\0\0\0\0\0\0\0\0\0\0\0\0\0\0\0\0\0\0\0\0a\0";
/// let reply = b"\x10\0\0\0\xfe\xff\xff\xff\x03\0\0\0\0\0\0\0";
/// assert_eq!(nizwarf::print_reply(lookup, reply), "-> unique=3 error=ENOENT (2)");
/// ```
#[must_use]
pub fn print_reply(request: &[u8], reply: &[u8]) -> String {
    text_of(&ffi::reply_line(request, reply))
}

/// A line of the library is ASCII.
fn text_of(line: &[u8]) -> String {
    String::from_utf8_lossy(line).into_owned()
}

/// The result of [`Session::check`].
#[non_exhaustive]
#[derive(Clone, Copy, Debug, PartialEq, Eq)]
pub enum Checked {
    /// The request is valid, and needs the call of this opcode. RENAME2 counts as RENAME, and READDIRPLUS as
    /// READDIR.
    Call(u32),
    /// It needs no call: [`Scratch::decode`](crate::Scratch::decode) makes its reply.
    Finished,
    /// It is an INTERRUPT of the request with this number.
    Interrupts(u64),
}

impl Session {
    /// Checks a request, for a program in front of a server that trusts its client. `reply_size` is the size
    /// of the reply buffer. It does not check that the request has the length in its header.
    ///
    /// ```
    /// use nizwarf::{Checked, Refusal, Session};
    ///
    /// // A STATFS, whole and cut.
    /// let mut request = [0; 40];
    /// (request[0], request[4]) = (40, 17);
    /// let session = Session::default();
    /// assert_eq!(session.check(&request, 4096), Ok(Checked::Call(17)));
    /// assert_eq!(session.check(&request[..39], 4096), Err(Refusal::DecodeMessage));
    /// ```
    ///
    /// # Errors
    /// The [`Refusal`] of the request. [`Refusal::OutOfMemory`] is possible only for a `BATCH_FORGET` or a
    /// security context, because nothing else is allocated.
    pub fn check(&self, request: &[u8], reply_size: usize) -> Result<Checked, Refusal> {
        let (code, call, interrupts) = ffi::check(&self.raw, self.features.bits(), request, reply_size);
        if code == code::CALL {
            return Ok(Checked::Call(call.opcode));
        }
        Refusal::of(code)?;
        Ok(match interrupts {
            0 => Checked::Finished,
            number => Checked::Interrupts(number),
        })
    }
}

#[cfg(test)]
mod tests {
    use super::*;

    /// A request of this opcode and number.
    fn request(opcode: u8, body: &[u8]) -> Vec<u8> {
        let mut bytes = vec![0; 40];
        bytes.extend_from_slice(body);
        let [len, ..] = bytes.len().to_le_bytes();
        (bytes[0], bytes[4], bytes[8]) = (len, opcode, 7);
        bytes
    }

    #[test]
    fn each_kind_of_request_is_reported() {
        let session = Session::default();
        for (bytes, reply_size, expected) in [
            (request(1, b"a\0"), 4096, Ok(Checked::Call(1))),
            (request(1, b"a"), 4096, Err(Refusal::InvalidCString)),
            (request(36, &[9, 0, 0, 0, 0, 0, 0, 0]), 0, Ok(Checked::Interrupts(9))),
            (request(36, &[]), 0, Ok(Checked::Finished)),
            (request(99, &[]), 16, Ok(Checked::Finished)),
            (request(99, &[]), 15, Err(Refusal::EncodeMessage)),
            (request(2, &[1, 0, 0, 0, 0, 0, 0, 0]), 0, Ok(Checked::Call(2))),
        ] {
            assert_eq!(session.check(&bytes, reply_size), expected);
        }
    }

    #[test]
    fn lines_are_printable_and_whole() {
        let name = [0x07; 2000];
        let line = print_request(&request(1, &[&name[..], &[0]].concat()), FsOptions::empty());
        // The header's length has one byte here, so the tail is refused.
        assert!(line.ends_with("refused=InvalidCString"), "{line}");
        let mut write = request(16, &[0xff; 60]);
        write[0] = 100;
        let line = print_request(&write, FsOptions::empty());
        assert!(line.bytes().all(|byte| (b' '..=b'~').contains(&byte)), "{line}");
        assert!(line.starts_with("WRITE unique=7 "), "{line}");
        assert_eq!(print_request(&[], FsOptions::empty()), "refused=DecodeMessage");
        assert_eq!(print_reply(&[], &[]), "-> no reply");
    }
}
