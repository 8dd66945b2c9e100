//! Serves a descriptor by the crate `fuser`, for `others.py`.
//!
//! Usage: `beside-fuser DESCRIPTOR`
//!
//! The descriptor is a socket that keeps messages apart, in place of `/dev/fuse`. The file system is an empty
//! root. Status 0: the session ended, and standard error says how; 2: it could not start; 101: it panicked.

use fuser::{
    Config, Errno, FileAttr, FileHandle, FileType, Filesystem, INodeNo, ReplyAttr, ReplyEntry,
    Request, Session, SessionACL,
};
use std::ffi::OsStr;
use std::os::fd::{FromRawFd, OwnedFd};
use std::time::{Duration, UNIX_EPOCH};

struct Empty;

impl Filesystem for Empty {
    fn getattr(&self, _: &Request, _: INodeNo, _: Option<FileHandle>, reply: ReplyAttr) {
        let root = FileAttr {
            ino: INodeNo(1),
            size: 0,
            blocks: 0,
            atime: UNIX_EPOCH,
            mtime: UNIX_EPOCH,
            ctime: UNIX_EPOCH,
            crtime: UNIX_EPOCH,
            kind: FileType::Directory,
            perm: 0o755,
            nlink: 2,
            uid: 0,
            gid: 0,
            rdev: 0,
            blksize: 512,
            flags: 0,
        };
        reply.attr(&Duration::ZERO, &root);
    }

    fn lookup(&self, _: &Request, _: INodeNo, _: &OsStr, reply: ReplyEntry) {
        reply.error(Errno::ENOENT);
    }
}

fn main() {
    let word = std::env::args().nth(1).unwrap_or_default();
    let Ok(descriptor) = word.parse() else {
        println!("Usage: beside-fuser DESCRIPTOR");
        std::process::exit(if word == "--help" { 0 } else { 2 });
    };
    // SAFETY: the descriptor is that of the socket which this program is started with, and nobody else's.
    let device = unsafe { OwnedFd::from_raw_fd(descriptor) };
    let ended = Session::from_fd(Empty, device, SessionACL::All, Config::default())
        .and_then(Session::spawn)
        .and_then(fuser::BackgroundSession::join);
    eprintln!("the session ended: {ended:?}");
}
