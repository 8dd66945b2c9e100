// Package nizwarf serves file systems in Go over FUSE: implement FileSystem, and call Mount.
//
// The library libnizwarf decodes each request of the kernel, and encodes the reply. Its calls and replies are proved to be
// those of a written grammar for all bytes that a request may have; this package is tested.
//
// Names and meanings are those of libfuse's low-level interface. Nodes are numbers of the file system's choice, of which
// 1 is the root. A method fails with a syscall.Errno, or an error that wraps one, as those of package os do. Any other
// error, a panic, and a result that Linux would refuse are logged, and are EIO for the process that waits.
package nizwarf

import (
	"syscall"
	"time"
)

// Root is the number of the root node.
const Root = 1

// Request says for whom a method is called, and what extensions the request has.
type Request struct {
	// Unique is the number of the request.
	Unique     uint64
	UID, GID   uint32
	PID        int32
	Umask, Has uint32
	// Group is another group of the process, if HasGroup is among Has.
	Group uint32
	// ContextName and Context are an attribute that a new node gets, if HasContext is among Has.
	ContextName string
	Context     []byte
	// ExtFlags of a SETXATTR: 1 clears the set-group-ID bit.
	ExtFlags uint32
	done     <-chan struct{}
}

// Done returns a channel that is closed when the process that waits for the reply is interrupted by a signal, and when the
// session ends: the connection is aborted, as by umount -f, or the context of Mount has ended. A method that waits must
// watch it, and should then fail with EINTR, because the process and Mount wait for the method.
func (r *Request) Done() <-chan struct{} {
	return r.done
}

// Bits of Request.Has.
const (
	HasContext            = 1 << 2 // the new node gets a security attribute
	HasGroup              = 1 << 3 // Request.Group is valid
	HasKillSuidgid        = 1 << 4 // the set-user-ID and set-group-ID bits must be cleared
	HasWriteCache         = 1 << 5 // the data of a write come from the kernel's cache
	HasReleaseFlush       = 1 << 7 // a release is also a flush
	HasReleaseFlockUnlock = 1 << 8 // a release ends locks of flock(2)
)

// Attr has the attributes of a node. Those that are not given are 0.
type Attr struct {
	Ino, Size, Blocks, Atime, Mtime, Ctime       uint64
	Atimensec, Mtimensec, Ctimensec, Mode, Nlink uint32
	UID, GID, Rdev, Blksize, Flags               uint32
}

// Setattr has the attributes that a SETATTR sets: those whose bits, SetMode and others, are among the argument toSet. The
// argument file has Fh and LockOwner, if the kernel sent them. Valid has the bits as the kernel sent them: use toSet and
// file instead.
type Setattr struct {
	Valid                                    uint32
	_                                        uint32
	Fh, Size, LockOwner, Atime, Mtime, Ctime uint64
	Atimensec, Mtimensec, Ctimensec, Mode    uint32
	_                                        uint32
	UID, GID                                 uint32
	_                                        uint32
}

// Bits of the argument toSet of FileSystem.Setattr.
const (
	SetMode        = 1 << 0
	SetUID         = 1 << 1
	SetGID         = 1 << 2
	SetSize        = 1 << 3
	SetAtime       = 1 << 4
	SetMtime       = 1 << 5
	SetAtimeNow    = 1 << 7
	SetMtimeNow    = 1 << 8
	SetCtime       = 1 << 10
	SetKillSuidgid = 1 << 11
)

// Entry is a name in a directory: the number of its node, and the node's attributes. The kernel caches both for these
// times. An entry counts as one lookup of its node until Forget; node 0 says that there is no such name.
type Entry struct {
	Node, Generation          uint64
	Attr                      Attr
	EntryTimeout, AttrTimeout time.Duration
}

// DirectoryEntry is an entry in the listing of a directory. Offset is where a listing goes on after it, and must not be 0;
// Mode has the type, as syscall.S_IFDIR, or is 0 if that is not known.
type DirectoryEntry struct {
	Name        string
	Offset, Ino uint64
	Mode        uint32
}

// File is an open file or directory: the handle that Open returned, the flags of open(2), and the owner of locks. What a
// request does not have is 0.
type File struct {
	Handle, LockOwner uint64
	Flags             uint32
}

// Opened is what is known of a file that was opened: a handle of the file system's choice, flags as OpenDirectIO, and, if
// PASSTHROUGH is enabled, the number that the ioctl FUSE_DEV_IOC_BACKING_OPEN returned, or 0.
type Opened struct {
	Handle           uint64
	Flags, BackingID uint32
}

// Bits of Opened.Flags.
const (
	OpenDirectIO = 1 << iota
	OpenKeepCache
	OpenNonseekable
	OpenCacheDir
	OpenStream
	OpenNoflush
	OpenParallelDirectWrites
)

// Statfs has the size and the free space of a file system, as statvfs(3). Namemax is only reported: a file system must fail
// with ENAMETOOLONG itself.
type Statfs struct {
	Bsize, Frsize, Blocks, Bfree, Bavail, Files, Ffree, Namemax uint64
}

// Connection is what the kernel and the file system agree on. Capable are the options that the kernel has, and Want those
// that are enabled, as WantWritebackCache. FileSystem.Init may change Want and the fields after Device, of which 0 stands
// for the usual value. Bits of Want that are not in Capable are ignored. Device is the descriptor of /dev/fuse.
//
// Its methods send notices to the kernel. A file system may keep the connection for that, and call them on any goroutine.
// An invalidation must not be sent by a method for the same node or name, or under a lock that methods need, because Linux
// may wait for the end of a method before it handles the notice. A notice fails with the error of the kernel, as ENOENT if
// that has cached nothing; or with ENOTCONN, before Init has returned and once the session has ended.
type Connection struct {
	Capable, Want                                                   uint64
	Device                                                          int
	MaxReadahead, MaxWrite, TimeGran, MaxStackDepth, RequestTimeout uint32
	MaxBackground, CongestionThreshold                              uint16
	server                                                          *server
}

// Bits of Connection.Want. Others are those of FUSE_ASYNC_READ and the following in linux/fuse.h; flags2 begins at bit 32.
const (
	WantPosixLocks     = 1 << 1        // Linux calls Getlk and Setlk, and does not keep these locks itself
	WantAtomicTruncate = 1 << 3        // Open truncates a file with O_TRUNC; otherwise Linux calls Setattr
	WantDontMask       = 1 << 6        // the file system applies Request.Umask
	WantFlockLocks     = 1 << 10       // Linux calls Flock
	WantReaddirplus    = 1<<13 | 1<<14 // Lookup is called for the entries of Readdir
	WantWritebackCache = 1 << 16
	WantPosixACL       = 1 << 20
	WantCacheSymlinks  = 1 << 23
	WantKillPriv       = 1 << 28 // writes and truncations have HasKillSuidgid and SetKillSuidgid
	WantSecurityCtx    = 1 << 32
	WantPassthrough    = 1 << 37
	WantIDMap          = 1 << 40
)

// FileSystem is a file system. A type should embed Default, and have the methods that it supports. Methods are called by
// several goroutines at once, and their arguments must not be used after they return; copy what is kept. file is nil if the
// request names no open file. Flags and modes are those of the system calls with the method's name: they are the numbers of
// Linux's headers, some of which package syscall lacks, as RENAME_NOREPLACE, XATTR_CREATE and POLLIN.
type FileSystem interface {
	// Init begins the session.
	Init(connection *Connection) error
	// Destroy ends the session. The kernel has no lookup and no open file from then on.
	Destroy()
	// Lookup returns the entry of a name in a directory.
	Lookup(r *Request, parent uint64, name string) (Entry, error)
	// Forget takes count from the number of lookups of a node, which entries have counted. At 0, and with no name left, its
	// number may be reused with another Generation.
	Forget(r *Request, node, count uint64)
	// Getattr returns the attributes of a node, and how long the kernel may cache them.
	Getattr(r *Request, node uint64, file *File) (Attr, time.Duration, error)
	// Setattr sets attributes, and returns all as Getattr does.
	Setattr(r *Request, node uint64, attr *Setattr, toSet uint32, file *File) (Attr, time.Duration, error)
	// Readlink returns the target of a symbolic link, at most 4095 bytes.
	Readlink(r *Request, node uint64) (string, error)
	Mknod(r *Request, parent uint64, name string, mode, rdev uint32) (Entry, error)
	Mkdir(r *Request, parent uint64, name string, mode uint32) (Entry, error)
	// Unlink removes a file. Its node is valid until it is forgotten.
	Unlink(r *Request, parent uint64, name string) error
	Rmdir(r *Request, parent uint64, name string) error
	Symlink(r *Request, target string, parent uint64, name string) (Entry, error)
	Rename(r *Request, parent uint64, name string, newParent uint64, newName string, flags uint32) error
	// Link gives a node another name.
	Link(r *Request, node, newParent uint64, newName string) (Entry, error)
	Open(r *Request, node uint64, flags uint32) (Opened, error)
	// Create creates and opens a file.
	Create(r *Request, parent uint64, name string, mode, flags uint32) (Entry, Opened, error)
	// Read fills in data, less only at the end of the file, and returns how many bytes were filled in. io.EOF is no
	// failure.
	Read(r *Request, node uint64, data []byte, offset uint64, file *File) (int, error)
	// Write returns how many bytes were written.
	Write(r *Request, node uint64, data []byte, offset uint64, file *File) (int, error)
	// Flush is called as a process closes one of its descriptors. The method must remove the fcntl(2) locks of
	// file.LockOwner.
	Flush(r *Request, node uint64, file *File) error
	// Release is called as the last descriptor is closed, or if the kernel did not get the handle. If HasReleaseFlockUnlock
	// is among r.Has, it must remove the flock(2) lock of file.LockOwner.
	Release(r *Request, node uint64, file *File) error
	Fsync(r *Request, node uint64, datasync bool, file *File) error
	Opendir(r *Request, node uint64, flags uint32) (Opened, error)
	// Readdir adds the entries of a directory, from its beginning if offset is 0, or else after the entry with this
	// offset, until add returns false: that entry did not fit.
	Readdir(r *Request, node, offset uint64, file *File, add func(DirectoryEntry) bool) error
	Releasedir(r *Request, node uint64, file *File) error
	Fsyncdir(r *Request, node uint64, datasync bool, file *File) error
	Statfs(r *Request, node uint64) (Statfs, error)
	Setxattr(r *Request, node uint64, name string, value []byte, flags uint32) error
	// Getxattr returns the value of an extended attribute, or fails with ENODATA.
	Getxattr(r *Request, node uint64, name string) ([]byte, error)
	Listxattr(r *Request, node uint64) ([]string, error)
	Removexattr(r *Request, node uint64, name string) error
	// Access is not called on a mount with default_permissions.
	Access(r *Request, node uint64, mask uint32) error
	Fallocate(r *Request, node uint64, mode uint32, offset, length uint64, file *File) error
	// Lseek returns the place of the next data (whence 3) or hole (4).
	Lseek(r *Request, node, offset uint64, whence uint32, file *File) (uint64, error)
	CopyFileRange(r *Request, node, offset uint64, file *File, outNode, outOffset uint64, outFile *File, size uint64,
		flags uint64) (uint64, error)
	Syncfs(r *Request, node uint64) error
	// Tmpfile creates and opens a file without a name, for O_TMPFILE.
	Tmpfile(r *Request, parent uint64, mode, flags uint32) (Entry, Opened, error)
	// Getlk returns a lock of fcntl(2) that conflicts with this one of file.LockOwner, or one of type F_UNLCK.
	Getlk(r *Request, node uint64, file *File, lock Lock) (Lock, error)
	// Setlk sets or removes a lock of fcntl(2) of file.LockOwner. With sleep it waits until it has the lock, or until
	// r.Done() is closed.
	Setlk(r *Request, node uint64, file *File, lock Lock, sleep bool) error
	// Flock does an operation of flock(2): LOCK_SH, LOCK_EX or LOCK_UN, with LOCK_NB if it must not wait. The owner of the
	// lock is file.LockOwner. Waiting is as for Setlk.
	Flock(r *Request, node uint64, file *File, operation int) error
	// Bmap returns the block of the device for a block of a file, on a mount of a block device.
	Bmap(r *Request, node uint64, blockSize uint32, block uint64) (uint64, error)
	// Ioctl returns the result of ioctl(2), and output of at most size bytes; or fails with ENOTTY if it does not know the
	// command. Linux has copied the input from the address that is the argument, and copies the output there. Flags are
	// FUSE_IOCTL_DIR and others of linux/fuse.h.
	Ioctl(r *Request, node uint64, command uint32, argument uint64, file *File, flags uint32, input []byte,
		size uint32) (int32, []byte, error)
	// Poll returns which events of poll(2) have occurred. If notify is true, Connection.Wake must be called with the
	// handle as soon as an event occurs that was not returned. The handle is the same for all polls of one open file, and
	// valid until Release. Wake may be called more often than needed, and by a method too.
	Poll(r *Request, node uint64, file *File, events uint32, handle uint64, notify bool) (uint32, error)
	// Statx returns at least the attributes in mask, and how long the kernel may cache them. Linux calls it if these are
	// more than Getattr returns, as the time of birth.
	Statx(r *Request, node uint64, flags, mask uint32, file *File) (Statx, time.Duration, error)
}

// Lock is a lock of the bytes from Start to End, which is included; End is 1<<63-1 for a lock to the end of the file. Type
// is F_RDLCK, F_WRLCK or F_UNLCK, PID the process that has it.
type Lock struct {
	Start, End uint64
	Type, PID  uint32
}

// Statx has the attributes of statx(2). Mask says which of them are given.
type Statx struct {
	_                                        uint64
	_, _                                     uint32
	_                                        [2]uint64
	Mask, Blksize                            uint32
	Attributes                               uint64
	Nlink, UID, GID                          uint32
	Mode                                     uint16
	_                                        [1]uint16
	Ino, Size, Blocks, AttributesMask        uint64
	Atime, Btime, Ctime, Mtime               StatxTime
	RdevMajor, RdevMinor, DevMajor, DevMinor uint32
	_                                        [14]uint64
}

// StatxTime is a time of Statx, since 1970.
type StatxTime struct {
	Sec  int64
	Nsec uint32
	_    int32
}

// Default has all methods of FileSystem, for types that embed it. Init, Destroy, Forget, Open, Release, Opendir and
// Releasedir succeed, Statfs returns that names have at most 255 bytes, and all others fail with ENOSYS.
type Default struct{}

const missing = syscall.ENOSYS

func (Default) Init(*Connection) error                         { return nil }
func (Default) Destroy()                                       {}
func (Default) Lookup(*Request, uint64, string) (Entry, error) { return Entry{}, missing }
func (Default) Forget(*Request, uint64, uint64)                {}
func (Default) Getattr(*Request, uint64, *File) (Attr, time.Duration, error) {
	return Attr{}, 0, missing
}
func (Default) Setattr(*Request, uint64, *Setattr, uint32, *File) (Attr, time.Duration, error) {
	return Attr{}, 0, missing
}
func (Default) Readlink(*Request, uint64) (string, error) { return "", missing }
func (Default) Mknod(*Request, uint64, string, uint32, uint32) (Entry, error) {
	return Entry{}, missing
}
func (Default) Mkdir(*Request, uint64, string, uint32) (Entry, error)         { return Entry{}, missing }
func (Default) Unlink(*Request, uint64, string) error                         { return missing }
func (Default) Rmdir(*Request, uint64, string) error                          { return missing }
func (Default) Symlink(*Request, string, uint64, string) (Entry, error)       { return Entry{}, missing }
func (Default) Rename(*Request, uint64, string, uint64, string, uint32) error { return missing }
func (Default) Link(*Request, uint64, uint64, string) (Entry, error)          { return Entry{}, missing }
func (Default) Open(*Request, uint64, uint32) (Opened, error)                 { return Opened{}, nil }
func (Default) Create(*Request, uint64, string, uint32, uint32) (Entry, Opened, error) {
	return Entry{}, Opened{}, missing
}
func (Default) Read(*Request, uint64, []byte, uint64, *File) (int, error)  { return 0, missing }
func (Default) Write(*Request, uint64, []byte, uint64, *File) (int, error) { return 0, missing }
func (Default) Flush(*Request, uint64, *File) error                        { return missing }
func (Default) Release(*Request, uint64, *File) error                      { return nil }
func (Default) Fsync(*Request, uint64, bool, *File) error                  { return missing }
func (Default) Opendir(*Request, uint64, uint32) (Opened, error)           { return Opened{}, nil }
func (Default) Readdir(*Request, uint64, uint64, *File, func(DirectoryEntry) bool) error {
	return missing
}
func (Default) Releasedir(*Request, uint64, *File) error     { return nil }
func (Default) Fsyncdir(*Request, uint64, bool, *File) error { return missing }
func (Default) Statfs(*Request, uint64) (Statfs, error) {
	return Statfs{Bsize: 512, Frsize: 512, Namemax: 255}, nil
}
func (Default) Setxattr(*Request, uint64, string, []byte, uint32) error         { return missing }
func (Default) Getxattr(*Request, uint64, string) ([]byte, error)               { return nil, missing }
func (Default) Listxattr(*Request, uint64) ([]string, error)                    { return nil, missing }
func (Default) Removexattr(*Request, uint64, string) error                      { return missing }
func (Default) Access(*Request, uint64, uint32) error                           { return missing }
func (Default) Fallocate(*Request, uint64, uint32, uint64, uint64, *File) error { return missing }
func (Default) Lseek(*Request, uint64, uint64, uint32, *File) (uint64, error)   { return 0, missing }
func (Default) CopyFileRange(*Request, uint64, uint64, *File, uint64, uint64, *File, uint64, uint64) (uint64, error) {
	return 0, missing
}
func (Default) Syncfs(*Request, uint64) error { return missing }
func (Default) Tmpfile(*Request, uint64, uint32, uint32) (Entry, Opened, error) {
	return Entry{}, Opened{}, missing
}
func (Default) Getlk(*Request, uint64, *File, Lock) (Lock, error)     { return Lock{}, missing }
func (Default) Setlk(*Request, uint64, *File, Lock, bool) error       { return missing }
func (Default) Flock(*Request, uint64, *File, int) error              { return missing }
func (Default) Bmap(*Request, uint64, uint32, uint64) (uint64, error) { return 0, missing }
func (Default) Ioctl(*Request, uint64, uint32, uint64, *File, uint32, []byte, uint32) (int32, []byte, error) {
	return 0, nil, missing
}
func (Default) Poll(*Request, uint64, *File, uint32, uint64, bool) (uint32, error) { return 0, missing }
func (Default) Statx(*Request, uint64, uint32, uint32, *File) (Statx, time.Duration, error) {
	return Statx{}, 0, missing
}
