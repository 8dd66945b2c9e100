//! A [`FileSystem`] over a file system for fuser: each call is taken, and answered by the reply object that
//! the method receives.

use crate::answer::To;
use crate::attr::SetattrIn;
use crate::call::Call;
use crate::client::Client;
use crate::errno::Errno as Own;
use crate::file_system::{Context, FileSystem, NoEntries};
use crate::flags::{Features, FsOptions, SetattrValid};
use crate::fuser::config::{KernelConfig, SessionACL};
use crate::fuser::errno::Errno;
use crate::fuser::filesystem::Filesystem;
use crate::fuser::flags::{
    AccessFlags, CopyFileRangeFlags, IoctlFlags, PollEvents, PollFlags, RenameFlags, WriteFlags,
};
use crate::fuser::notify::{Notifier, PollHandle, PollNotifier};
use crate::fuser::reply::{
    Answer, DataOf, Link, Listing, Loss, ReplyAttr, ReplyBmap, ReplyCreate, ReplyData, ReplyDirectory,
    ReplyDirectoryPlus, ReplyEmpty, ReplyEntry, ReplyIoctl, ReplyLock, ReplyLseek, ReplyOpen, ReplyPoll,
    ReplyStatfs, ReplyWrite, ReplyXattr,
};
use crate::fuser::types::{
    time_of, FileHandle, ForgetOne, INodeNo, LockOwner, OpenFlags, Request, TimeOrNow, Version,
};
use crate::kinds;
use crate::names::AsOsStr;
use crate::optional::{Limits, PollHandle as Handle};
use crate::server::guard;
use crate::system;
use std::io;
use std::mem;
use std::path::Path;
use std::sync::{Arc, Mutex, PoisonError, RwLock, RwLockReadGuard, RwLockWriteGuard};
use std::time::SystemTime;

/// A file system, and the stage of its session.
#[derive(Debug)]
enum Stage<F> {
    /// Before the INIT.
    New(F),
    /// After the INIT.
    Begun(F),
    /// The session has ended.
    Over,
}

/// Fields of an INIT that [`FileSystem::init`] does not have as arguments.
#[derive(Clone, Copy, Debug, Default)]
struct First {
    context: Context,
    version: (u32, u32),
    readahead: u32,
}

/// A [`FileSystem`] over a [`Filesystem`].
#[derive(Debug)]
pub(super) struct Adapter<F: Filesystem> {
    stage: RwLock<Stage<F>>,
    first: Mutex<First>,
    limits: Mutex<Limits>,
    /// Why `init` failed.
    failed: Mutex<Option<io::Error>>,
    losses: Arc<Mutex<Vec<Loss>>>,
    max_write: u32,
    acl: SessionACL,
    owner: u32,
}

impl<F: Filesystem> Adapter<F> {
    /// `max_write` is the largest WRITE in bytes, which the reply to INIT has.
    pub fn new(files: F, acl: SessionACL, max_write: u32) -> Self {
        Adapter {
            stage: RwLock::new(Stage::New(files)),
            first: Mutex::default(),
            limits: Mutex::default(),
            failed: Mutex::default(),
            losses: Arc::default(),
            max_write,
            acl,
            owner: system::user_and_group().0,
        }
    }

    /// Reads fields of an INIT, before it is served.
    pub fn see(&self, request: &[u8]) {
        let word = |at: usize| {
            let bytes = request.get(at..at + 4).and_then(|bytes| bytes.try_into().ok());
            bytes.map_or(0, u32::from_le_bytes)
        };
        let context = Context {
            unique: u64::from(word(8)) | u64::from(word(12)) << 32,
            uid: word(24),
            gid: word(28),
            pid: i32::from_le_bytes(word(32).to_le_bytes()),
        };
        *guard(&self.first) = First { context, version: (word(40), word(44)), readahead: word(48) };
    }

    /// Returns whether the session has begun, or why it cannot.
    pub fn has_begun(&self) -> io::Result<bool> {
        match &*self.read() {
            Stage::New(_) => Ok(false),
            Stage::Begun(_) => Ok(true),
            Stage::Over => Err(guard(&self.failed).take().unwrap_or_else(|| Own::ENOTCONN.into())),
        }
    }

    /// The stage, for a call. Any number of calls may lock it at once. A panic of one of them is ignored
    /// here, because it ends the session.
    fn read(&self) -> RwLockReadGuard<'_, Stage<F>> {
        self.stage.read().unwrap_or_else(PoisonError::into_inner)
    }

    /// The stage, to change it. This waits for the present calls.
    fn write(&self) -> RwLockWriteGuard<'_, Stage<F>> {
        self.stage.write().unwrap_or_else(PoisonError::into_inner)
    }

    /// Ends the session once.
    fn end(&self) {
        if let Stage::New(mut files) | Stage::Begun(mut files) = mem::replace(&mut *self.write(), Stage::Over)
        {
            files.destroy();
        }
    }

    /// Makes a call that has no answer.
    fn quietly(&self, context: Context, call: impl FnOnce(&F, &Request)) {
        if let Stage::Begun(files) = &*self.read() {
            call(files, &Request::new(context));
        }
    }

    /// Drops the lookups and handles that were in replies that the kernel did not receive.
    fn drop_losses(&self, context: Context) {
        // (in a statement of its own, because a method that is called may answer another call, and lose more)
        let losses = mem::take(&mut *guard(&self.losses));
        for loss in losses {
            self.quietly(context, |files, req| match loss {
                Loss::Lookup(node) => files.forget(req, INodeNo(node), 1),
                Loss::Handle(node, handle) => {
                    let (node, handle) = (INodeNo(node), FileHandle(handle));
                    let reply = ReplyEmpty(Answer::to_nobody());
                    files.release(req, node, handle, OpenFlags(0), None, false, reply);
                }
            });
        }
    }

    /// Whether calls of this user are allowed. Calls that the kernel makes for no user always are.
    fn allows(&self, uid: u32, call: &Call<'_>) -> bool {
        // The kernel makes these for open files, with the user of any process that flushes or closes them.
        let is_of_nobody = matches!(
            call,
            Call::Read { .. }
                | Call::Readdir { .. }
                | Call::Write { .. }
                | Call::Fsync { .. }
                | Call::Fsyncdir { .. }
                | Call::Release { .. }
                | Call::Releasedir { .. }
        );
        is_of_nobody
            || match self.acl {
                SessionACL::All => true,
                SessionACL::RootAndOwner => uid == 0 || uid == self.owner,
                SessionACL::Owner => uid == self.owner,
            }
    }
}

impl<F: Filesystem> Drop for Adapter<F> {
    fn drop(&mut self) {
        self.end();
    }
}

impl<F: Filesystem> FileSystem for Adapter<F> {
    type Inode = u64;
    type Handle = u64;
    type DirIter = NoEntries;

    fn init(&self, capable: FsOptions) -> io::Result<FsOptions> {
        let mut stage = self.write();
        let mut files = match mem::replace(&mut *stage, Stage::Over) {
            Stage::New(files) => files,
            other => {
                *stage = other;
                return Err(Own::EIO.into()); // the session goes on
            }
        };
        let First { context, version, readahead } = *guard(&self.first);
        let version = Version(version.0, version.1);
        let mut config = KernelConfig::new(capable, readahead, self.max_write, version);
        match files.init(&Request::new(context), &mut config) {
            Ok(()) => {
                *stage = Stage::Begun(files);
                let (options, limits) = config.decided();
                *guard(&self.limits) = limits;
                Ok(options)
            }
            Err(error) => {
                files.destroy();
                // The client gets a number, and `mount2` the error itself.
                let number = Errno::from_i32(error.raw_os_error().unwrap_or(0));
                *guard(&self.failed) = Some(error);
                Err(number.into())
            }
        }
    }

    fn destroy(&self) {
        self.end();
    }

    fn features(&self) -> Features {
        Features::LOCKS | Features::BMAP | Features::IOCTL | Features::POLL
    }

    fn limits(&self) -> Limits {
        *guard(&self.limits)
    }

    fn forget(&self, ctx: Context, inode: u64, count: u64) {
        self.quietly(ctx, |files, req| files.forget(req, INodeNo(inode), count));
    }

    fn batch_forget(&self, ctx: Context, requests: Vec<(u64, u64)>) {
        let nodes: Vec<ForgetOne> =
            requests.into_iter().map(|(node, count)| ForgetOne { node, count }).collect();
        self.quietly(ctx, |files, req| files.batch_forget(req, &nodes));
    }

    fn take<'r>(&self, ctx: Context, call: Call<'r>, client: &Client) -> Option<Call<'r>> {
        self.drop_losses(ctx);
        if matches!(call, Call::Forget { .. } | Call::BatchForget { .. }) {
            return Some(call);
        }
        let link = Link { client: client.clone(), losses: Arc::clone(&self.losses) };
        let refuse = |call: Call<'_>, error: Errno| {
            link.send(&[], |scratch| call.fail(scratch, &error.into()));
            None
        };
        match &*self.read() {
            Stage::Begun(_) if !self.allows(ctx.uid, &call) => refuse(call, Errno::EACCES),
            Stage::Begun(files) => {
                let made = Made { files, req: &Request::new(ctx), link: &link };
                made.make(call).and_then(|call| refuse(call, Errno::ENOSYS))
            }
            _ => refuse(call, Errno::EIO),
        }
    }
}

/// The file system, the caller and the client of a call.
struct Made<'a, F> {
    files: &'a F,
    req: &'a Request,
    link: &'a Link,
}

/// The same bits, with a sign.
#[allow(clippy::cast_possible_wrap)]
const fn signed(bits: u32) -> i32 {
    bits as i32
}

/// Whether one of these is no offset in a file, which has 63 bits.
fn are_too_large(places: &[u64]) -> bool {
    places.iter().any(|place| i64::try_from(*place).is_err())
}

fn file_data(answer: Answer<kinds::Data>) -> ReplyData {
    ReplyData(DataOf::File(answer))
}

fn link_data(answer: Answer<kinds::Bytes>) -> ReplyData {
    ReplyData(DataOf::Link(answer))
}

fn write_flags(is_cached: bool, has_owner: bool, kills: bool) -> WriteFlags {
    let mut flags = WriteFlags::empty();
    flags.set(WriteFlags::FUSE_WRITE_CACHE, is_cached);
    flags.set(WriteFlags::FUSE_WRITE_LOCKOWNER, has_owner);
    flags.set(WriteFlags::FUSE_WRITE_KILL_SUIDGID, kills);
    flags
}

fn poll_flags(waits: bool) -> PollFlags {
    let mut flags = PollFlags::empty();
    flags.set(PollFlags::FUSE_POLL_SCHEDULE_NOTIFY, waits);
    flags
}

/// Makes a call by a method of fuser's. Each line has the fields of the call that the method needs, the
/// method with its arguments, and its reply; after `unless` a condition under which the answer is an error
/// instead. The expression after `else` makes all other calls.
macro_rules! make {
    ($this:ident, $call:ident else $rest:expr; $(
        $Call:ident { $($field:ident),* } => $method:ident($($argument:expr),*) -> $reply:expr
        $(, unless $is_wrong:expr => $error:ident)?;
    )*) => {
        match $call {
            $(Call::$Call { $($field,)* to, .. } => {
                let reply = $reply($this.answer(to));
                $(if $is_wrong {
                    reply.error(Errno::$error);
                    return None;
                })?
                $this.files.$method($this.req, $($argument,)* reply);
                None
            })*
            $call => $rest,
        }
    };
}

impl<F: Filesystem> Made<'_, F> {
    /// The answer for a reply object. It may be kept after the call, so it has a link of its own.
    fn answer<K>(&self, to: To<K>) -> Answer<K> {
        Answer::new(to, self.link)
    }

    /// Makes a call, or returns one that fuser does not have.
    #[allow(clippy::too_many_lines)] // a table
    fn make<'r>(&self, call: Call<'r>) -> Option<Call<'r>> {
        make! { self, call else self.make_other(call);
            Lookup { parent, name } => lookup(INodeNo(parent), name.as_os_str()) -> ReplyEntry;
            Symlink { linkname, parent, name } =>
                symlink(INodeNo(parent), name.as_os_str(), Path::new(linkname.as_os_str())) -> ReplyEntry;
            Mknod { parent, name, mode, rdev, umask } =>
                mknod(INodeNo(parent), name.as_os_str(), mode, umask, rdev) -> ReplyEntry;
            Mkdir { parent, name, mode, umask } =>
                mkdir(INodeNo(parent), name.as_os_str(), mode, umask) -> ReplyEntry;
            Unlink { parent, name } => unlink(INodeNo(parent), name.as_os_str()) -> ReplyEmpty;
            Rmdir { parent, name } => rmdir(INodeNo(parent), name.as_os_str()) -> ReplyEmpty;
            Rename { parent, name, new_parent, new_name, flags } =>
                rename(
                    INodeNo(parent), name.as_os_str(), INodeNo(new_parent), new_name.as_os_str(),
                    RenameFlags::from_bits_retain(flags)
                ) -> ReplyEmpty;
            Link { node, new_parent, new_name } =>
                link(INodeNo(node), INodeNo(new_parent), new_name.as_os_str()) -> ReplyEntry;
            Create { parent, name, mode, flags, umask } =>
                create(INodeNo(parent), name.as_os_str(), mode, umask, signed(flags)) -> ReplyCreate;
            Getattr { node, handle } => getattr(INodeNo(node), handle.map(FileHandle)) -> ReplyAttr;
            Readlink { node } => readlink(INodeNo(node)) -> link_data;
            Statfs { node } => statfs(INodeNo(node)) -> ReplyStatfs;
            Setxattr { node, name, value, flags } =>
                setxattr(INodeNo(node), name.as_os_str(), &value, signed(flags), 0) -> ReplyEmpty;
            Getxattr { node, name, size } => getxattr(INodeNo(node), name.as_os_str(), size) -> ReplyXattr;
            Listxattr { node, size } => listxattr(INodeNo(node), size) -> ReplyXattr;
            Removexattr { node, name } => removexattr(INodeNo(node), name.as_os_str()) -> ReplyEmpty;
            Access { node, mask } =>
                access(INodeNo(node), AccessFlags::from_bits_retain(signed(mask))) -> ReplyEmpty;
            Bmap { node, block, block_size } => bmap(INodeNo(node), block_size, block) -> ReplyBmap;
            Open { node, flags } => open(INodeNo(node), OpenFlags(signed(flags))) -> ReplyOpen;
            Opendir { node, flags } => opendir(INodeNo(node), OpenFlags(signed(flags))) -> ReplyOpen;
            Releasedir { node, flags, handle } =>
                releasedir(INodeNo(node), FileHandle(handle), OpenFlags(signed(flags))) -> ReplyEmpty;
            Fsyncdir { node, datasync, handle } =>
                fsyncdir(INodeNo(node), FileHandle(handle), datasync) -> ReplyEmpty;
            Read { node, handle, size, offset, lock_owner, flags } =>
                read(
                    INodeNo(node), FileHandle(handle), offset, size, OpenFlags(signed(flags)),
                    lock_owner.map(LockOwner)
                ) -> file_data, unless are_too_large(&[offset]) => EINVAL;
            Flush { node, handle, lock_owner } =>
                flush(INodeNo(node), FileHandle(handle), LockOwner(lock_owner)) -> ReplyEmpty;
            Release { node, flags, handle, flush, lock_owner } =>
                release(
                    INodeNo(node), FileHandle(handle), OpenFlags(signed(flags)), lock_owner.map(LockOwner),
                    flush
                ) -> ReplyEmpty;
            Fsync { node, datasync, handle } =>
                fsync(INodeNo(node), FileHandle(handle), datasync) -> ReplyEmpty;
            Fallocate { node, handle, mode, offset, length } =>
                fallocate(INodeNo(node), FileHandle(handle), offset, length, signed(mode)) -> ReplyEmpty,
                unless are_too_large(&[offset, length]) => EINVAL;
            Lseek { node, handle, offset, whence } =>
                lseek(
                    INodeNo(node), FileHandle(handle), i64::from_le_bytes(offset.to_le_bytes()),
                    signed(whence)
                ) -> ReplyLseek;
            Write { node, handle, data, offset, lock_owner, delayed_write, kill_priv, flags } =>
                write(
                    INodeNo(node), FileHandle(handle), offset, &data.to_cow(),
                    write_flags(delayed_write, lock_owner.is_some(), kill_priv), OpenFlags(signed(flags)),
                    lock_owner.map(LockOwner)
                ) -> ReplyWrite, unless are_too_large(&[offset]) => EINVAL;
            CopyFileRange { node_in, handle_in, offset_in, node_out, handle_out, offset_out, len, flags } =>
                copy_file_range(
                    INodeNo(node_in), FileHandle(handle_in), offset_in, INodeNo(node_out),
                    FileHandle(handle_out), offset_out, len, CopyFileRangeFlags::from_bits_retain(flags)
                ) -> ReplyWrite, unless are_too_large(&[offset_in, offset_out]) => EINVAL;
            Getlk { node, handle, lock_owner, lock } =>
                getlk(
                    INodeNo(node), FileHandle(handle), LockOwner(lock_owner), lock.start, lock.end,
                    signed(lock.kind.number()), lock.pid
                ) -> ReplyLock;
            Setlk { node, handle, lock_owner, lock } =>
                setlk(
                    INodeNo(node), FileHandle(handle), LockOwner(lock_owner), lock.start, lock.end,
                    signed(lock.kind.number()), lock.pid, false
                ) -> ReplyEmpty;
            Setlkw { node, handle, lock_owner, lock } =>
                setlk(
                    INodeNo(node), FileHandle(handle), LockOwner(lock_owner), lock.start, lock.end,
                    signed(lock.kind.number()), lock.pid, true
                ) -> ReplyEmpty;
            Ioctl { node, handle, flags, cmd, input, output_size } =>
                ioctl(
                    INodeNo(node), FileHandle(handle), IoctlFlags::from_bits_retain(flags.bits()), cmd,
                    &input, output_size
                ) -> ReplyIoctl, unless flags.contains(crate::IoctlFlags::UNRESTRICTED) => ENOSYS;
            Poll { node, handle, wake, events } =>
                poll(
                    INodeNo(node), FileHandle(handle), self.notifier(wake),
                    PollEvents::from_bits_retain(events), poll_flags(wake.is_some())
                ) -> ReplyPoll;
        }
    }

    /// Makes a call whose method has other arguments, or returns it.
    fn make_other<'r>(&self, call: Call<'r>) -> Option<Call<'r>> {
        match call {
            Call::Setattr { node, attr, handle, valid, to } => {
                self.setattr(INodeNo(node), &attr, handle, valid, ReplyAttr(self.answer(to)));
            }
            Call::Readdir { node, handle, size, offset, plus, to } => {
                let (files, req) = (self.files, self.req);
                let (node, handle) = (INodeNo(node), FileHandle(handle));
                let listing = Listing::new(to, size, self.link);
                if plus {
                    files.readdirplus(req, node, handle, offset, ReplyDirectoryPlus(listing));
                } else {
                    files.readdir(req, node, handle, offset, ReplyDirectory(listing));
                }
            }
            other => return Some(other),
        }
        None
    }

    /// A notifier for an event. Its handle identifies the caller that waits, or is 0.
    fn notifier(&self, wake: Option<Handle>) -> PollNotifier {
        let handle = PollHandle(wake.map_or(0, |wake| wake.0));
        PollNotifier { handle, notifier: Notifier(self.link.client.notifier()) }
    }

    fn setattr(
        &self, node: INodeNo, attr: &SetattrIn, handle: Option<u64>, valid: SetattrValid, reply: ReplyAttr,
    ) {
        fn some<T>(is_set: bool, value: T) -> Option<T> {
            is_set.then_some(value)
        }
        let time = |now, given, time: SystemTime| {
            let given = some(valid.contains(given), TimeOrNow::SpecificTime(time));
            some(valid.contains(now), TimeOrNow::Now).or(given)
        };
        let access = time_of(attr.atime, attr.atimensec);
        let modified = time_of(attr.mtime, attr.mtimensec);
        let changed = time_of(attr.ctime, attr.ctimensec);
        self.files.setattr(
            self.req,
            node,
            some(valid.contains(SetattrValid::MODE), attr.mode),
            some(valid.contains(SetattrValid::UID), attr.uid),
            some(valid.contains(SetattrValid::GID), attr.gid),
            some(valid.contains(SetattrValid::SIZE), attr.size),
            time(SetattrValid::ATIME_NOW, SetattrValid::ATIME, access),
            time(SetattrValid::MTIME_NOW, SetattrValid::MTIME, modified),
            some(valid.contains(SetattrValid::CTIME), changed),
            handle.map(FileHandle),
            None,
            None,
            None,
            None,
            reply,
        );
    }
}
