//! Functions of the C library that `std` does not have, as a mount needs them, and safe wrappers.
#![allow(unsafe_code)]

use std::ffi::{c_void, CStr};
use std::fs::File;
use std::io::{self, IoSliceMut};
use std::mem::size_of;
use std::os::raw::{c_char, c_int, c_short, c_ulong};
use std::os::unix::io::{AsRawFd, FromRawFd};
use std::os::unix::net::UnixStream;
use std::ptr;

/// `struct msghdr`.
#[repr(C)]
struct Message<'a> {
    name: *mut c_void,
    name_len: u32,
    pieces: *mut IoSliceMut<'a>,
    pieces_len: usize,
    control: *mut Control,
    control_len: usize,
    flags: c_int,
}

/// `struct cmsghdr`, and a descriptor after it.
#[repr(C, align(8))]
#[derive(Default)]
struct Control {
    len: usize,
    level: c_int,
    kind: c_int,
    descriptor: c_int,
}

/// `struct pollfd`.
#[repr(C)]
struct Polled {
    descriptor: c_int,
    events: c_short,
    came: c_short,
}

/// `struct statx`, up to the number of the mount.
#[repr(C)]
struct Seen {
    mask: u32,
    attributes: [u32; 35],
    mount: u64,
    others: [u64; 13],
}

extern "C" {
    fn mount(
        source: *const c_char, folder: *const c_char, kind: *const c_char, flags: c_ulong,
        data: *const c_char,
    ) -> c_int;
    fn umount2(folder: *const c_char, flags: c_int) -> c_int;
    fn statx(directory: c_int, name: *const c_char, flags: c_int, mask: u32, seen: *mut Seen) -> c_int;
    fn geteuid() -> u32;
    fn getegid() -> u32;
    fn poll(polled: *mut Polled, count: c_ulong, milliseconds: c_int) -> c_int;
    fn recvmsg(socket: c_int, message: *mut Message<'_>, flags: c_int) -> isize;
}

/// The effective user and group of this process.
pub(crate) fn user_and_group() -> (u32, u32) {
    // SAFETY: both have no arguments, and always succeed.
    unsafe { (geteuid(), getegid()) }
}

/// Mounts, as `mount(2)`.
pub(crate) fn mount_on(source: &CStr, folder: &CStr, kind: &CStr, flags: u64, data: &CStr) -> io::Result<()> {
    let data = data.as_ptr();
    // SAFETY: all are strings that end with a NUL, and valid for this call.
    let failed = unsafe { mount(source.as_ptr(), folder.as_ptr(), kind.as_ptr(), flags, data) };
    done(failed)
}

/// Detaches the mount on a folder, which ends with its last user. A symbolic link is not followed.
pub(crate) fn unmount(folder: &CStr) -> io::Result<()> {
    const MNT_DETACH: c_int = 2;
    const UMOUNT_NOFOLLOW: c_int = 8;
    // SAFETY: the string ends with a NUL, and is valid for this call.
    done(unsafe { umount2(folder.as_ptr(), MNT_DETACH | UMOUNT_NOFOLLOW) })
}

/// The number of the mount that a name in a directory leads to, or `None` before Linux 5.8. No request is
/// sent to the file system that is mounted there, because this process may serve it, and would wait for
/// itself.
pub(crate) fn number_of_mount(directory: &File, name: &CStr) -> Option<u64> {
    const AT_SYMLINK_NOFOLLOW: c_int = 0x100;
    const AT_NO_AUTOMOUNT: c_int = 0x800;
    const AT_STATX_DONT_SYNC: c_int = 0x4000;
    const HOW: c_int = AT_SYMLINK_NOFOLLOW | AT_NO_AUTOMOUNT | AT_STATX_DONT_SYNC;
    const STATX_MNT_ID: u32 = 0x1000;
    let mut seen = Seen { mask: 0, attributes: [0; 35], mount: 0, others: [0; 13] };
    let (directory, name) = (directory.as_raw_fd(), name.as_ptr());
    // SAFETY: the string ends with a NUL, and both it and the struct are valid for this call.
    let failed = unsafe { statx(directory, name, HOW, STATX_MNT_ID, &mut seen) };
    (failed == 0 && seen.mask & STATX_MNT_ID != 0).then_some(seen.mount)
}

/// Whether the mount of a device of `/dev/fuse` still exists.
pub(crate) fn is_connected(device: &File) -> bool {
    const POLLERR: c_short = 8;
    let mut polled = Polled { descriptor: device.as_raw_fd(), events: 0, came: 0 };
    // SAFETY: there is one struct, which is valid for this call.
    unsafe { poll(&mut polled, 1, 0) };
    polled.came & POLLERR == 0
}

/// Receives a descriptor, or `None` if the message has none or the socket is at its end.
pub(crate) fn receive(socket: &UnixStream) -> io::Result<Option<File>> {
    const SOL_SOCKET: c_int = 1;
    const SCM_RIGHTS: c_int = 1;
    const MSG_CMSG_CLOEXEC: c_int = 0x4000_0000;
    // The length of a header and one descriptor. The struct is longer by its padding, into which the kernel
    // would put a second descriptor, which would stay open.
    let one = size_of::<Control>() - size_of::<c_int>();
    let (mut byte, mut control) = ([0], Control::default());
    let mut pieces = [IoSliceMut::new(&mut byte)];
    let mut message = Message {
        name: ptr::null_mut(),
        name_len: 0,
        pieces: pieces.as_mut_ptr(),
        pieces_len: 1,
        control: &mut control,
        control_len: one,
        flags: 0,
    };
    // SAFETY: all pointers are valid for this call, and have these lengths.
    while unsafe { recvmsg(socket.as_raw_fd(), &mut message, MSG_CMSG_CLOEXEC) } < 0 {
        let error = io::Error::last_os_error();
        // A signal that the program handles is no failure of the mount.
        if error.kind() != io::ErrorKind::Interrupted {
            return Err(error);
        }
    }
    let is_one = (control.len, control.level, control.kind) == (one, SOL_SOCKET, SCM_RIGHTS);
    // SAFETY: the kernel made the descriptor for this process, and nothing else owns it.
    Ok(is_one.then(|| unsafe { File::from_raw_fd(control.descriptor) }))
}

fn done(failed: c_int) -> io::Result<()> {
    if failed == 0 {
        Ok(())
    } else {
        Err(io::Error::last_os_error())
    }
}

// The sizes that the C library has.
const _: () = assert!(size_of::<Message<'_>>() == 56);
const _: () = assert!(size_of::<Control>() == 24);
const _: () = assert!(size_of::<Polled>() == 8);
const _: () = assert!(size_of::<Seen>() == 256);

#[cfg(test)]
mod tests {
    use super::*;
    use std::io::Read;
    use std::thread;
    use std::time::Duration;

    extern "C" {
        fn sendmsg(socket: c_int, message: *const Message<'_>, flags: c_int) -> isize;
        fn signal(number: c_int, handler: extern "C" fn(c_int)) -> usize;
        fn siginterrupt(number: c_int, interrupts: c_int) -> c_int;
        fn pthread_self() -> c_ulong;
        fn pthread_kill(thread: c_ulong, number: c_int) -> c_int;
    }

    extern "C" fn do_nothing(_: c_int) {}

    /// As `Control`, with two descriptors.
    #[repr(C, align(8))]
    struct Two {
        len: usize,
        level: c_int,
        kind: c_int,
        descriptors: [c_int; 2],
    }

    #[test]
    fn a_second_descriptor_is_not_left_open() {
        let (ours, theirs) = UnixStream::pair().unwrap();
        let (mut end, sent) = UnixStream::pair().unwrap();
        let descriptors = [sent.as_raw_fd(); 2];
        let mut control = Two { len: size_of::<Two>(), level: 1, kind: 1, descriptors };
        let mut byte = [0];
        let mut pieces = [IoSliceMut::new(&mut byte)];
        let message = Message {
            name: ptr::null_mut(),
            name_len: 0,
            pieces: pieces.as_mut_ptr(),
            pieces_len: 1,
            control: ptr::addr_of_mut!(control).cast(),
            control_len: size_of::<Two>(),
            flags: 0,
        };
        // SAFETY: all pointers are valid for this call, and have these lengths.
        assert_eq!(unsafe { sendmsg(theirs.as_raw_fd(), &message, 0) }, 1);
        drop(receive(&ours).unwrap());
        drop(sent);
        // The last descriptor of that end is closed.
        end.set_read_timeout(Some(Duration::from_secs(5))).unwrap();
        assert_eq!(end.read(&mut [0]).unwrap(), 0);
    }

    #[test]
    fn a_signal_does_not_end_what_is_received() {
        const SIGUSR1: c_int = 10;
        let (ours, theirs) = UnixStream::pair().unwrap();
        // SAFETY: the function is one for signals, and this thread goes on while it is sent them.
        let this = unsafe {
            signal(SIGUSR1, do_nothing);
            siginterrupt(SIGUSR1, 1);
            pthread_self()
        };
        let other = thread::spawn(move || {
            for _ in 0..20 {
                thread::sleep(Duration::from_millis(10));
                // SAFETY: as above.
                unsafe { pthread_kill(this, SIGUSR1) };
            }
            drop(theirs);
        });
        assert!(receive(&ours).unwrap().is_none());
        other.join().unwrap();
    }
}
