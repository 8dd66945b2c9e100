//! Protects a program that serves FUSE requests: it passes on only those that are well-formed.
//!
//! The library decodes each request, and its call is dropped. If a request is refused, the reply is EIO. If
//! it needs no call, the library makes the reply. All other requests are passed to the program, and its
//! replies are passed back unchanged.

use nizwarf::{Call, Decoded, FsOptions, Scratch, Session};
use std::env;
use std::fs::File;
use std::io::{self, IoSlice, Read, Write};
use std::os::raw::c_int;
use std::os::unix::io::{AsFd, FromRawFd};
use std::process::{exit, Command};
use std::sync::atomic::{AtomicU64, Ordering};
use std::thread;

const USAGE: &str = "Usage: check MOUNTPOINT PROGRAM [ARGUMENT..]
       check - PROGRAM [ARGUMENT..]
Mounts the file system that PROGRAM serves on its standard input, which requires root, and passes
only well-formed requests to it; SIGINT and SIGTERM unmount it. With -, the requests come from
standard input.";

/// The state of the session.
struct Check {
    session: Session,
    options: AtomicU64,
    /// The number of the last INIT that was passed on. Its reply has the options.
    init: AtomicU64,
}

/// What to do with a request.
#[derive(Debug, PartialEq)]
enum Verdict {
    /// Pass it on.
    PassOn,
    /// Send this reply, unless it is empty.
    Reply(Vec<u8>),
}

impl Check {
    fn new(session: Session) -> Self {
        Check { session, options: AtomicU64::new(0), init: AtomicU64::new(0) }
    }

    fn judge(&self, scratch: &mut Scratch, request: &[u8]) -> Verdict {
        let mut session = self.session;
        session.set_options(FsOptions::from_bits_truncate(self.options.load(Ordering::Acquire)));
        let slices = [IoSlice::new(request)];
        match scratch.decode(&session, &slices, session.longest_message()) {
            Decoded::Call(pending) => {
                match &pending.call {
                    Call::Init { to, .. } => self.init.store(to.unique(), Ordering::Release),
                    Call::Destroy { .. } => self.options.store(0, Ordering::Release),
                    _ => {}
                }
                Verdict::PassOn
            }
            Decoded::Finished(done) if done.interrupts.is_some() => Verdict::PassOn,
            Decoded::Finished(mut done) => match done.outcome {
                Ok(()) => Verdict::Reply(done.reply.bytes().to_vec()),
                Err(refusal) => {
                    eprintln!("check: invalid request of {} bytes: {refusal}", request.len());
                    Verdict::Reply(fault(request))
                }
            },
        }
    }

    /// Looks for the options in a reply of the program.
    fn see(&self, reply: &[u8]) {
        let word = |at: usize| {
            let bytes = reply.get(at..at + 4).and_then(|bytes| bytes.try_into().ok());
            u64::from(u32::from_le_bytes(bytes.unwrap_or_default()))
        };
        let unique = word(8) | word(12) << 32;
        if unique == self.init.load(Ordering::Acquire) && reply.len() == 80 && word(4) == 0 {
            self.options.store(word(28) | word(48) << 32, Ordering::Release);
        }
    }
}

/// Returns the reply EIO to a request, or nothing if it is too short to have a number.
fn fault(request: &[u8]) -> Vec<u8> {
    const EIO: i32 = 5;
    let unique = request.get(8..16).unwrap_or_default();
    if unique.is_empty() {
        return Vec::new();
    }
    [&16_u32.to_le_bytes(), &(-EIO).to_le_bytes(), unique].concat()
}

/// Reads a message. It is empty at the end.
fn next<'a>(mut from: &File, buffer: &'a mut [u8]) -> io::Result<&'a [u8]> {
    const ENOENT: i32 = 2;
    const ENODEV: i32 = 19;
    loop {
        match from.read(buffer) {
            // The request was aborted.
            Err(error) if error.raw_os_error() == Some(ENOENT) => {}
            Err(error) if error.raw_os_error() == Some(ENODEV) => return Ok(&[]),
            len => return len.map(|len| &buffer[..len]),
        }
    }
}

/// Sends a reply to the client, unless it no longer waits for one.
fn reply_to(mut device: &File, reply: &[u8]) -> io::Result<()> {
    const ENOENT: i32 = 2;
    match device.write(reply) {
        Err(error) if error.raw_os_error() == Some(ENOENT) => Ok(()),
        sent => sent.map(drop),
    }
}

/// Passes messages between the client's device and the program until the client ends.
fn relay(device: &File, program: &File) -> io::Result<()> {
    let check = Check::new(Session::default());
    let longest = check.session.longest_message();
    thread::scope(|scope| {
        let replies = scope.spawn(|| -> io::Result<()> {
            let mut buffer = vec![0; longest];
            loop {
                let reply = next(program, &mut buffer)?;
                if reply.is_empty() {
                    return Ok(());
                }
                check.see(reply);
                reply_to(device, reply)?;
            }
        });
        let (mut scratch, mut buffer) = (Scratch::new(), vec![0; longest]);
        loop {
            let request = next(device, &mut buffer)?;
            if request.is_empty() {
                end_writing(program)?;
                return replies.join().unwrap_or(Ok(()));
            }
            match check.judge(&mut scratch, request) {
                Verdict::PassOn => drop((&mut &*program).write(request)?),
                Verdict::Reply(reply) if reply.is_empty() => {}
                Verdict::Reply(reply) => reply_to(device, &reply)?,
            }
        }
    })
}

extern "C" {
    fn socketpair(domain: c_int, kind: c_int, protocol: c_int, ends: *mut c_int) -> c_int;
    fn pthread_sigmask(how: c_int, set: *const Signals, old: *mut Signals) -> c_int;
    fn sigwait(set: *const Signals, signal: *mut c_int) -> c_int;
}

/// `sigset_t`: signal N is bit N - 1.
#[repr(C)]
struct Signals([u64; 16]);

/// SIGINT and SIGTERM.
static ENDING: Signals = Signals([1 << (2 - 1) | 1 << (15 - 1), 0, 0, 0, 0, 0, 0, 0, 0, 0, 0, 0, 0, 0, 0, 0]);

/// Blocks the signals that end this process, also for threads that begin after it.
fn block_signals() {
    const SIG_BLOCK: c_int = 0;
    // SAFETY: the set has the size of the C library's.
    unsafe { pthread_sigmask(SIG_BLOCK, &ENDING, std::ptr::null_mut()) };
}

/// Unmounts, if possible, because all operations fail on a mount that nobody serves.
fn unmount(folder: &str) {
    if let Err(error) = Command::new("umount").args(["-i", "-l", "--", folder]).status() {
        eprintln!("check: cannot unmount: {error}");
    }
}

/// Unmounts at the first of these signals; a second one ends the process.
fn unmount_at_signal(folder: &str) {
    let mut signal = 0;
    // SAFETY: the set has the size of the C library's, and the number is this function's own.
    unsafe { sigwait(&ENDING, &mut signal) };
    unmount(folder);
    // SAFETY: as above.
    unsafe { sigwait(&ENDING, &mut signal) };
    exit(1)
}

/// Creates a pair of sockets that preserve message boundaries.
fn ends() -> io::Result<(File, File)> {
    const AF_UNIX: c_int = 1;
    const SOCK_SEQPACKET_CLOEXEC: c_int = 5 | 0o2_000_000;
    let mut ends = [0; 2];
    // SAFETY: the array has two elements, and nothing else owns the new descriptors.
    unsafe {
        if socketpair(AF_UNIX, SOCK_SEQPACKET_CLOEXEC, 0, ends.as_mut_ptr()) < 0 {
            return Err(io::Error::last_os_error());
        }
        Ok((File::from_raw_fd(ends[0]), File::from_raw_fd(ends[1])))
    }
}

/// Shuts down writing, so that the other end reads the end of the stream.
fn end_writing(socket: &File) -> io::Result<()> {
    let socket = std::os::unix::net::UnixStream::from(socket.as_fd().try_clone_to_owned()?);
    socket.shutdown(std::net::Shutdown::Write)
}

fn mount_on(folder: &str) -> io::Result<File> {
    let device = File::options().read(true).write(true).open("/dev/fuse")?;
    let options = "-ofd=0,rootmode=40000,user_id=0,group_id=0,default_permissions";
    let mut mount = Command::new("mount");
    mount.args(["-i", "-tfuse.check", options, "check", folder]).stdin(device.try_clone()?);
    if mount.status()?.success() {
        Ok(device)
    } else {
        exit(1)
    }
}

fn main() -> io::Result<()> {
    let words: Vec<_> = env::args().skip(1).collect();
    let words: Vec<_> = words.iter().map(String::as_str).collect();
    let (folder, program, words) = match words[..] {
        ["--help"] => {
            println!("{USAGE}");
            return Ok(());
        }
        [folder, program, ref words @ ..] if folder == "-" || !folder.starts_with('-') => {
            (folder, program, words)
        }
        _ => {
            eprintln!("{USAGE}");
            exit(2)
        }
    };
    let (ours, theirs) = ends()?;
    let mut child = Command::new(program).args(words).stdin(theirs).spawn()?;
    let device = match folder {
        "-" => File::from(io::stdin().as_fd().try_clone_to_owned()?),
        folder => {
            block_signals();
            let (device, folder) = (mount_on(folder)?, folder.to_owned());
            thread::spawn(move || unmount_at_signal(&folder));
            device
        }
    };
    let done = relay(&device, &ours);
    if done.is_err() && folder != "-" {
        unmount(folder);
    }
    done?;
    drop(ours);
    exit(child.wait()?.code().unwrap_or(1))
}

#[cfg(test)]
mod tests {
    use super::*;

    /// A request about node 1.
    fn request(len: u8, opcode: u8, unique: u8, body: &[u8]) -> Vec<u8> {
        let mut bytes = vec![0; 40];
        (bytes[0], bytes[4], bytes[8], bytes[16]) = (len, opcode, unique, 1);
        bytes.extend_from_slice(body);
        bytes
    }

    fn received(from: &File) -> Vec<u8> {
        let mut buffer = [0; 256];
        next(from, &mut buffer).unwrap().to_vec()
    }

    #[test]
    fn only_well_formed_requests_are_passed_on() {
        let (client, device) = ends().unwrap();
        let (ours, program) = ends().unwrap();
        let relayed = thread::spawn(move || relay(&device, &ours));
        let send = |bytes: &[u8]| assert_eq!((&mut &client).write(bytes).unwrap(), bytes.len());
        // An INIT of version 7.38 with security contexts. The program agrees to them.
        let mut body = vec![0; 64];
        (body[0], body[4], body[15], body[16]) = (7, 38, 0x40, 1);
        let init = request(104, 26, 1, &body);
        send(&init);
        assert_eq!(received(&program), init);
        let mut reply = vec![0; 80];
        (reply[0], reply[8], reply[16], reply[20], reply[48]) = (80, 1, 7, 38, 1);
        assert_eq!((&mut &program).write(&reply).unwrap(), 80);
        assert_eq!(received(&client), reply);
        // No name, a name without NUL, a wrong length, and no security context.
        for broken in [
            request(40, 1, 2, &[]),
            request(43, 1, 2, b"abc"),
            request(99, 1, 2, b"abc\0"),
            request(50, 9, 2, &[0, 0, 0, 0, 0, 0, 0, 0, b'a', 0]),
        ] {
            send(&broken);
            let eio = [16, 0, 0, 0, 251, 255, 255, 255, 2, 0, 0, 0, 0, 0, 0, 0];
            assert_eq!(received(&client), eio);
        }
        send(&[1, 2, 3]);
        // The reply to an opcode that does not exist is ENOSYS.
        send(&request(40, 99, 3, &[]));
        assert_eq!(received(&client), [16, 0, 0, 0, 218, 255, 255, 255, 3, 0, 0, 0, 0, 0, 0, 0]);
        let whole = request(44, 1, 4, b"abc\0");
        send(&whole);
        assert_eq!(received(&program), whole);
        let interrupt = request(48, 36, 5, &[4, 0, 0, 0, 0, 0, 0, 0]);
        send(&interrupt);
        assert_eq!(received(&program), interrupt);
        drop(client);
        assert_eq!(received(&program), []);
        drop(program);
        relayed.join().unwrap().unwrap();
    }
}
