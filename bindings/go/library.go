package nizwarf

// Decodes requests, calls methods, and encodes replies by libnizwarf. No other file has names of C.

/*
#cgo CFLAGS: -I${SRCDIR}/../../include
#cgo LDFLAGS: -lnizwarf
#include <stdlib.h>
#include "nizwarf_ops.h"
*/
import "C"

import (
	"encoding/binary"
	"errors"
	"fmt"
	"io"
	"log"
	"runtime"
	"runtime/debug"
	"strings"
	"sync"
	"syscall"
	"time"
	"unsafe"
)

const (
	payload, headerSize = 1 << 20, 16
	// The sizes of the buffers of a request and of a reply: of any one, and of one without data.
	bufferSize, smallSize = payload + 4096, 8192
	// Opcodes that C has no names for: the first one calls no method, the other one is a NIZWARF_READDIR.
	interrupt, readdirplus = 36, 44
	initExt                = 1 << 30
	// The optional operations that FileSystem has, and the option of INIT, HAS_INODE_DAX, that needs another one.
	features = C.NIZWARF_FEATURE_LOCKS | C.NIZWARF_FEATURE_BMAP | C.NIZWARF_FEATURE_IOCTL | C.NIZWARF_FEATURE_POLL |
		C.NIZWARF_FEATURE_STATX | C.NIZWARF_FEATURE_COPY_64 | C.NIZWARF_FEATURE_TMPFILE | C.NIZWARF_FEATURE_INIT
	unserved = 1 << 33
	// FUSE_POLL_SCHEDULE_NOTIFY, and the size of the longest notice without its name.
	scheduleNotify, noticeSize = 1, 48
)

// Structs of this package that have the layout of the library's, which a test compares.
var layouts = [][2]any{
	{Attr{}, C.nizwarf_attr{}}, {Setattr{}, C.nizwarf_setattr{}}, {Statfs{}, C.nizwarf_statfs{}},
	{Lock{}, C.nizwarf_lock{}}, {Statx{}, C.nizwarf_statx{}}, {StatxTime{}, C.nizwarf_sx_time{}},
}

// buffer is memory that C allocates, because C reads it through pointers.
type buffer struct {
	at   unsafe.Pointer
	size int
}

func newBuffer(size int) *buffer {
	return &buffer{C.malloc(C.size_t(size)), size}
}

func (b *buffer) bytes() []byte {
	return unsafe.Slice((*byte)(b.at), b.size)
}

func (b *buffer) free() {
	C.free(b.at)
}

// large has the buffers for requests and replies with data, which no goroutine keeps between requests.
var large = sync.Pool{New: func() any {
	b := newBuffer(bufferSize)
	runtime.SetFinalizer(b, (*buffer).free)
	return b
}}

// worker serves one request at a time.
type worker struct {
	*server
	// The buffers of this request and of its reply, and those for a small request and a small reply.
	request, reply           *buffer
	smallRequest, smallReply *buffer
	// The size of the request.
	requestSize int
	done        <-chan struct{}
	scratch     C.nizwarf_scratch
	session     C.nizwarf_session
	call        C.nizwarf_call
	result      C.nizwarf_result
	answer      C.nizwarf_answer
	entries     []C.nizwarf_dirent
	opened      bool
	// The fields of the call. openFile is nil if the request names no open file.
	who                        *Request
	node, offset, size, length uint64
	name, otherName            string
	data                       []byte
	file, openFile             *File
	otherNode                  uint64
	flags, mode, more, rdev    uint32
	datasync                   bool
	lock                       Lock
}

func newWorker(s *server) *worker {
	w := &worker{server: s, smallRequest: newBuffer(smallSize), smallReply: newBuffer(smallSize)}
	w.request, w.reply = w.smallRequest, w.smallReply
	return w
}

func (w *worker) free() {
	C.nizwarf_scratch_free(&w.scratch)
	w.release()
	w.smallRequest.free()
	w.smallReply.free()
}

// take takes the next request, which is in a large buffer. It keeps this buffer only for a large request, because a method
// may wait.
func (w *worker) take(from *buffer, size int) {
	w.request, w.requestSize = from, size
	if size <= smallSize {
		copy(w.smallRequest.bytes(), from.bytes()[:size])
		w.request = w.smallRequest
		large.Put(from)
	}
	if hasLargeReply(w.word(4)) {
		w.reply = large.Get().(*buffer)
	}
}

// release returns the large buffers.
func (w *worker) release() {
	if w.request != w.smallRequest {
		large.Put(w.request)
	}
	if w.reply != w.smallReply {
		large.Put(w.reply)
	}
	w.request, w.reply = w.smallRequest, w.smallReply
}

// hasLargeReply returns whether the reply to an opcode has data of the file system.
func hasLargeReply(opcode uint32) bool {
	switch opcode {
	case C.NIZWARF_READ, C.NIZWARF_READDIR, readdirplus, C.NIZWARF_GETXATTR, C.NIZWARF_LISTXATTR, C.NIZWARF_IOCTL:
		return true
	}
	return false
}

// word returns a number of 32 bits in the request, or 0 if it is shorter.
func (w *worker) word(at int) uint32 {
	if at+4 > w.requestSize {
		return 0
	}
	return binary.LittleEndian.Uint32(w.request.bytes()[at:])
}

// unique returns the number of the request.
func (w *worker) unique() uint64 {
	return uint64(w.word(12))<<32 | uint64(w.word(8))
}

// body is what follows the header of a reply.
func (w *worker) body() []byte {
	return w.reply.bytes()[headerSize:]
}

// serve serves the request, and returns the reply, which may be empty.
func (w *worker) serve() []byte {
	w.session = C.nizwarf_session{options: C.uint64_t(w.options.Load()), page_size: 4096, max_buffer: payload}
	request := C.struct_iovec{w.request.at, C.size_t(w.requestSize)}
	reply := C.struct_iovec{w.reply.at, C.size_t(w.reply.size)}
	code := C.nizwarf_decode(&w.scratch, &w.session, features, &request, 1, &reply, 1, &w.call, &w.result)
	w.interrupt(uint64(w.result.interrupts))
	if code == C.NIZWARF_CALL {
		w.answer, w.entries, w.opened = C.nizwarf_answer{}, nil, false
		w.describe()
		w.answer.error = C.int32_t(w.number(w.run()))
		code = w.encode(&reply)
	}
	if code != C.NIZWARF_OK {
		return w.reject(int32(code))
	}
	return w.reply.bytes()[:w.result.len]
}

// encode encodes the reply. What the kernel does not get is released and forgotten.
func (w *worker) encode(reply *C.struct_iovec) C.int32_t {
	if count := len(w.entries); count > 0 {
		w.answer.items = (*C.nizwarf_dirent)(C.malloc(C.size_t(count) * C.sizeof_nizwarf_dirent))
		w.answer.items_len = C.size_t(count)
		copy(unsafe.Slice(w.answer.items, count), w.entries)
		defer C.free(unsafe.Pointer(w.answer.items))
	}
	code := C.nizwarf_encode(&w.scratch, &w.session, &w.call, &w.answer, reply, 1, &w.result)
	if code != C.NIZWARF_OK && w.opened && w.answer.error == 0 {
		file := &File{Handle: uint64(w.answer.handle), Flags: w.flags}
		w.quietly(func() error {
			switch w.call.opcode {
			case C.NIZWARF_OPENDIR:
				return w.fs.Releasedir(w.who, w.node, file)
			case C.NIZWARF_OPEN:
				return w.fs.Release(w.who, w.node, file)
			}
			return w.fs.Release(w.who, uint64(w.answer.entry.node), file)
		})
	}
	lost := []C.uint64_t{w.result.forget}
	for _, it := range w.entries[w.result.entries:] {
		lost = append(lost, it.entry.node)
	}
	for _, node := range lost {
		if node != 0 {
			w.forgetOne(uint64(node), 1)
		}
	}
	if w.call.opcode == C.NIZWARF_INIT || w.call.opcode == C.NIZWARF_DESTROY {
		w.options.Store(uint64(w.result.options))
	}
	return code
}

// reject returns an error for a request that was rejected, or for which there is no memory, because the kernel waits for
// a reply.
func (w *worker) reject(code int32) []byte {
	if w.requestSize < headerSize {
		return nil
	}
	opcode, unique := w.word(4), w.unique()
	log.Printf("nizwarf: rejected request %d with opcode %d: libnizwarf returned %d", unique, opcode, code)
	switch opcode {
	case C.NIZWARF_FORGET, C.NIZWARF_BATCH_FORGET, C.NIZWARF_NOTIFY_REPLY, interrupt: // no reply is expected
		return nil
	}
	if code == C.NIZWARF_OUT_OF_MEMORY {
		return fault(unique, syscall.ENOMEM)
	}
	return fault(unique, syscall.EIO)
}

// number returns the error number for Linux: EIO for an error without a valid one, which is logged.
func (w *worker) number(err error) syscall.Errno {
	var number syscall.Errno
	if err == nil || errors.As(err, &number) && number > 0 && number <= C.NIZWARF_MAX_ERRNO {
		return number
	}
	log.Printf("nizwarf: the method for opcode %d failed without a valid error number: %v", w.call.opcode, err)
	return syscall.EIO
}

// part returns the bytes of a range of the request.
func (w *worker) part(it C.nizwarf_range) []byte {
	return unsafe.Slice((*byte)(unsafe.Add(w.request.at, it.at)), it.len)
}

// describe fills in the fields of the call.
func (w *worker) describe() {
	c := &w.call
	w.who = &Request{Unique: uint64(c.unique), UID: uint32(c.uid), GID: uint32(c.gid), PID: int32(c.pid),
		Umask: uint32(c.umask), Has: uint32(c.has), Group: uint32(c.group), ContextName: string(w.part(c.context_name)),
		Context: w.part(c.context), ExtFlags: uint32(c.more), done: w.done}
	w.node, w.offset, w.size, w.length = uint64(c.node), uint64(c.offset), uint64(c.size), uint64(c.length)
	w.otherNode, w.datasync = uint64(c.other_node), c.has&C.NIZWARF_FSYNC_FDATASYNC != 0
	w.name, w.otherName, w.data = string(w.part(c.name)), string(w.part(c.other_name)), w.part(c.data)
	w.flags, w.mode, w.more, w.rdev = uint32(c.flags), uint32(c.mode), uint32(c.more), uint32(c.rdev)
	w.file, w.openFile = &File{uint64(c.handle), uint64(c.lock_owner), w.flags}, nil
	lock := C.nizwarf_lock_of(c)
	w.lock = *(*Lock)(unsafe.Pointer(&lock))
	switch c.opcode {
	case C.NIZWARF_SETATTR, C.NIZWARF_GETLK, C.NIZWARF_SETLK, C.NIZWARF_SETLKW, C.NIZWARF_IOCTL, C.NIZWARF_POLL,
		C.NIZWARF_STATX: // flags are not those of open(2)
		w.file.Flags = 0
	case C.NIZWARF_COPY, C.NIZWARF_COPY_64:
		w.file.LockOwner = 0
	}
	if c.has&C.NIZWARF_HAS_HANDLE != 0 {
		w.openFile = w.file
	}
}

// From here on: methods that put the results of a method of the file system into the answer.

func recordOf(e Entry) C.nizwarf_entry {
	seconds, nanoseconds := split(e.EntryTimeout)
	attrSeconds, attrNanoseconds := split(e.AttrTimeout)
	return C.nizwarf_entry{node: C.uint64_t(e.Node), generation: C.uint64_t(e.Generation), entry_seconds: seconds,
		attr_seconds: attrSeconds, entry_nanoseconds: nanoseconds, attr_nanoseconds: attrNanoseconds,
		attr: *(*C.nizwarf_attr)(unsafe.Pointer(&e.Attr))}
}

// split splits a time into seconds and nanoseconds. Less than 0 is 0.
func split(it time.Duration) (C.uint64_t, C.uint32_t) {
	if it < 0 {
		it = 0
	}
	return C.uint64_t(it / time.Second), C.uint32_t(it % time.Second)
}

func (w *worker) entry(e Entry, err error) error {
	w.answer.entry = recordOf(e)
	return err
}

func (w *worker) attr(attr Attr, timeout time.Duration, err error) error {
	return w.entry(Entry{Attr: attr, AttrTimeout: timeout}, err)
}

func (w *worker) open(it Opened, err error) error {
	w.opened, w.answer.has_handle, w.answer.handle = true, 1, C.uint64_t(it.Handle)
	w.answer.open_flags, w.answer.count = C.uint32_t(it.Flags), C.uint64_t(it.BackingID)
	return err
}

func (w *worker) create(e Entry, it Opened, err error) error {
	return w.open(it, w.entry(e, err))
}

func (w *worker) number64(it uint64, err error) error {
	w.answer.count = C.uint64_t(it)
	return err
}

// count sets a number of bytes, of which at most so many were requested.
func (w *worker) count(count int64, err error, most uint64) error {
	if err == nil && (count < 0 || uint64(count) > most) {
		return fmt.Errorf("%d bytes exceed the %d that were requested", count, most)
	}
	return w.number64(uint64(count), err)
}

// text puts bytes into the reply buffer.
func (w *worker) text(it []byte, err error) error {
	if err == nil && len(it) > len(w.body()) {
		return syscall.ERANGE
	}
	w.answer.text = (*C.uint8_t)(unsafe.Add(w.reply.at, headerSize))
	w.answer.text_len = C.size_t(copy(w.body(), it))
	return err
}

func (w *worker) xattr(it []byte, err error) error {
	if w.size == 0 { // the length alone is requested
		w.answer.has_count = 1
		return w.number64(uint64(len(it)), err)
	}
	if err == nil && uint64(len(it)) > w.size {
		return syscall.ERANGE
	}
	return w.text(it, err)
}

// recovered calls a method. A panic is an error.
func recovered(method func() error) (err error) {
	defer func() {
		if it := recover(); it != nil {
			err = fmt.Errorf("panic: %v\n%s", it, debug.Stack())
		}
	}()
	return method()
}

// quietly calls a method whose failure has no reply.
func (w *worker) quietly(method func() error) {
	w.number(recovered(method))
}

func (w *worker) forgetOne(node, count uint64) {
	w.quietly(func() error { w.fs.Forget(w.who, node, count); return nil })
}

// run calls the method for the request. A panic is an error, so that the process that waits gets a reply.
func (w *worker) run() error {
	return recovered(w.dispatch)
}

func (w *worker) dispatch() error {
	if int(w.call.opcode) < len(methods) && methods[w.call.opcode] != nil {
		return methods[w.call.opcode](w)
	}
	return syscall.ENOSYS
}

// methods has the function for each opcode.
var methods = [...]func(w *worker) error{
	C.NIZWARF_LOOKUP:       func(w *worker) error { return w.entry(w.fs.Lookup(w.who, w.node, w.name)) },
	C.NIZWARF_FORGET:       (*worker).forget,
	C.NIZWARF_BATCH_FORGET: (*worker).forgetMany,
	C.NIZWARF_GETATTR:      func(w *worker) error { return w.attr(w.fs.Getattr(w.who, w.node, w.openFile)) },
	C.NIZWARF_SETATTR:      (*worker).setattr,
	C.NIZWARF_READLINK:     (*worker).readlink,
	C.NIZWARF_SYMLINK:      func(w *worker) error { return w.entry(w.fs.Symlink(w.who, w.otherName, w.node, w.name)) },
	C.NIZWARF_MKNOD:        func(w *worker) error { return w.entry(w.fs.Mknod(w.who, w.node, w.name, w.mode, w.rdev)) },
	C.NIZWARF_MKDIR:        func(w *worker) error { return w.entry(w.fs.Mkdir(w.who, w.node, w.name, w.mode)) },
	C.NIZWARF_UNLINK:       func(w *worker) error { return w.fs.Unlink(w.who, w.node, w.name) },
	C.NIZWARF_RMDIR:        func(w *worker) error { return w.fs.Rmdir(w.who, w.node, w.name) },
	C.NIZWARF_RENAME: func(w *worker) error {
		return w.fs.Rename(w.who, w.node, w.name, w.otherNode, w.otherName, w.flags)
	},
	C.NIZWARF_LINK:        func(w *worker) error { return w.entry(w.fs.Link(w.who, w.node, w.otherNode, w.name)) },
	C.NIZWARF_OPEN:        func(w *worker) error { return w.open(w.fs.Open(w.who, w.node, w.flags)) },
	C.NIZWARF_CREATE:      func(w *worker) error { return w.create(w.fs.Create(w.who, w.node, w.name, w.mode, w.flags)) },
	C.NIZWARF_TMPFILE:     func(w *worker) error { return w.create(w.fs.Tmpfile(w.who, w.node, w.mode, w.flags)) },
	C.NIZWARF_READ:        (*worker).read,
	C.NIZWARF_WRITE:       (*worker).write,
	C.NIZWARF_STATFS:      (*worker).statfs,
	C.NIZWARF_FLUSH:       func(w *worker) error { return w.fs.Flush(w.who, w.node, w.file) },
	C.NIZWARF_RELEASE:     func(w *worker) error { return w.fs.Release(w.who, w.node, w.file) },
	C.NIZWARF_FSYNC:       func(w *worker) error { return w.fs.Fsync(w.who, w.node, w.datasync, w.file) },
	C.NIZWARF_SETXATTR:    func(w *worker) error { return w.fs.Setxattr(w.who, w.node, w.name, w.data, w.flags) },
	C.NIZWARF_GETXATTR:    func(w *worker) error { return w.xattr(w.fs.Getxattr(w.who, w.node, w.name)) },
	C.NIZWARF_LISTXATTR:   (*worker).listxattr,
	C.NIZWARF_REMOVEXATTR: func(w *worker) error { return w.fs.Removexattr(w.who, w.node, w.name) },
	C.NIZWARF_INIT:        (*worker).init,
	C.NIZWARF_DESTROY:     (*worker).destroy,
	C.NIZWARF_OPENDIR:     func(w *worker) error { return w.open(w.fs.Opendir(w.who, w.node, w.flags)) },
	C.NIZWARF_READDIR:     (*worker).list,
	C.NIZWARF_RELEASEDIR:  func(w *worker) error { return w.fs.Releasedir(w.who, w.node, w.file) },
	C.NIZWARF_FSYNCDIR:    func(w *worker) error { return w.fs.Fsyncdir(w.who, w.node, w.datasync, w.file) },
	C.NIZWARF_GETLK:       (*worker).getlk,
	C.NIZWARF_SETLK:       (*worker).setlk,
	C.NIZWARF_SETLKW:      (*worker).setlk,
	C.NIZWARF_ACCESS:      func(w *worker) error { return w.fs.Access(w.who, w.node, w.more) },
	C.NIZWARF_FALLOCATE: func(w *worker) error {
		return w.fs.Fallocate(w.who, w.node, w.mode, w.offset, w.length, w.file)
	},
	C.NIZWARF_BMAP:    func(w *worker) error { return w.number64(w.fs.Bmap(w.who, w.node, uint32(w.size), w.offset)) },
	C.NIZWARF_IOCTL:   (*worker).ioctl,
	C.NIZWARF_POLL:    (*worker).poll,
	C.NIZWARF_STATX:   (*worker).statx,
	C.NIZWARF_LSEEK:   func(w *worker) error { return w.number64(w.fs.Lseek(w.who, w.node, w.offset, w.more, w.file)) },
	C.NIZWARF_COPY:    (*worker).copyRange,
	C.NIZWARF_COPY_64: (*worker).copyRange,
	C.NIZWARF_SYNCFS:  func(w *worker) error { return w.fs.Syncfs(w.who, w.node) },
}

// init negotiates options: those that are wanted, that the kernel supports, and that are served.
func (w *worker) init() error {
	capable, extension := uint64(C.nizwarf_init_capable(&w.call)), uint64(C.nizwarf_init_ext_flags(&w.call))
	it := Connection{Capable: capable | extension, Want: capable & C.NIZWARF_WANT_DEFAULT &^ WantAtomicTruncate,
		Device: w.device, server: w.server}
	err := w.fs.Init(&it)
	it.Want &= it.Capable &^ unserved
	if it.Want>>32 != 0 {
		it.Want |= capable & initExt
	}
	// (the library enables some options that are not wanted, unless the kernel seems not to support them)
	C.nizwarf_init_keep(&w.call, C.uint64_t(it.Want))
	C.nizwarf_answer_options(&w.answer, C.uint64_t(it.Want&capable))
	// (in memory of C, because the answer points to it)
	params := (*C.nizwarf_init_params)(unsafe.Pointer(&w.body()[0]))
	*params = C.nizwarf_init_params{want: C.uint64_t(it.Want & extension), max_readahead: C.uint32_t(it.MaxReadahead),
		max_write: C.uint32_t(it.MaxWrite), time_gran: C.uint32_t(it.TimeGran),
		max_stack_depth: C.uint32_t(it.MaxStackDepth), request_timeout: C.uint32_t(it.RequestTimeout),
		max_background: C.uint16_t(it.MaxBackground), congestion_threshold: C.uint16_t(it.CongestionThreshold)}
	w.answer.init_params = params
	return err
}

func (w *worker) destroy() error {
	w.fs.Destroy()
	return nil
}

func (w *worker) forget() error {
	w.forgetOne(w.node, w.length)
	return nil
}

func (w *worker) forgetMany() error {
	for pairs := w.data; len(pairs) >= 16; pairs = pairs[16:] {
		w.forgetOne(binary.LittleEndian.Uint64(pairs), binary.LittleEndian.Uint64(pairs[8:]))
	}
	return nil
}

func (w *worker) setattr() error {
	return w.attr(w.fs.Setattr(w.who, w.node, (*Setattr)(unsafe.Pointer(&w.call.attr)), w.flags, w.openFile))
}

func (w *worker) readlink() error {
	target, err := w.fs.Readlink(w.who, w.node)
	if err == nil && len(target) > C.NIZWARF_MAX_LINK {
		return fmt.Errorf("the link's target is too long: %d bytes", len(target))
	}
	return w.text([]byte(target), err)
}

func (w *worker) read() error {
	size := w.size
	if most := uint64(C.nizwarf_read_max(&w.call)); size > most {
		size = most
	}
	count, err := w.fs.Read(w.who, w.node, w.body()[:size:size], w.offset, w.file)
	if errors.Is(err, io.EOF) {
		err = nil
	}
	return w.count(int64(count), err, size)
}

func (w *worker) write() error {
	data := w.data
	if uint64(len(data)) > w.size {
		data = data[:w.size]
	}
	count, err := w.fs.Write(w.who, w.node, data, w.offset, w.file)
	return w.count(int64(count), err, uint64(len(data)))
}

func (w *worker) statfs() error {
	statfs, err := w.fs.Statfs(w.who, w.node)
	w.answer.statfs = *(*C.nizwarf_statfs)(unsafe.Pointer(&statfs))
	return err
}

func (w *worker) listxattr() error {
	names, err := w.fs.Listxattr(w.who, w.node)
	return w.xattr([]byte(strings.Join(append(names, ""), "\x00")), err)
}

func (w *worker) ioctl() error {
	result, output, err := w.fs.Ioctl(w.who, w.node, w.more, w.offset, w.file, w.flags, w.data, uint32(w.size))
	if err == nil && uint64(len(output)) > w.size {
		return fmt.Errorf("%d bytes, where at most %d were requested", len(output), w.size)
	}
	record := C.nizwarf_ioctl{result: C.int32_t(result)}
	return w.text(append(unsafe.Slice((*byte)(unsafe.Pointer(&record)), unsafe.Sizeof(record)), output...), err)
}

func (w *worker) poll() error {
	events, err := w.fs.Poll(w.who, w.node, w.file, w.more, w.offset, w.flags&scheduleNotify != 0)
	return w.number64(uint64(events), err)
}

func (w *worker) statx() error {
	statx, timeout, err := w.fs.Statx(w.who, w.node, w.flags, w.more, w.openFile)
	record := (*C.nizwarf_statx)(unsafe.Pointer(&statx))
	record.attr_seconds, record.attr_nanoseconds = split(timeout)
	return w.text(unsafe.Slice((*byte)(unsafe.Pointer(record)), unsafe.Sizeof(statx)), err)
}

func (w *worker) copyRange() error {
	c, size := &w.call, w.length
	if c.opcode == C.NIZWARF_COPY && size > C.NIZWARF_MAX_COPY {
		size = C.NIZWARF_MAX_COPY
	}
	count, err := w.fs.CopyFileRange(w.who, w.node, w.offset, w.file, w.otherNode, uint64(c.other_offset),
		&File{Handle: uint64(c.other_handle)}, size, uint64(C.nizwarf_copy_flags(c)))
	return w.count(int64(count), err, size)
}

// list lists a directory: entries until one does not fit, or until there are no more. Their names are in the reply buffer,
// which suffices because a record is longer than its name.
func (w *worker) list() error {
	plus, left, names := C.int(w.call.has&C.NIZWARF_PLUS), int(w.size), w.body()
	if left > len(names) {
		left = len(names)
	}
	var wrong error
	err := w.fs.Readdir(w.who, w.node, w.offset, w.file, func(it DirectoryEntry) bool {
		size := len(it.Name) + 1
		if left -= int(C.nizwarf_record_size(C.size_t(size), plus)); left < 0 {
			return false
		}
		if it.Name == "" || strings.Contains(it.Name, "\x00") {
			wrong = fmt.Errorf("invalid name %q", it.Name)
			return false
		}
		entry := C.nizwarf_dirent{ino: C.uint64_t(it.Ino), offset: C.uint64_t(it.Offset), name: (*C.uint8_t)(&names[0]),
			name_size: C.size_t(size), _type: C.uint32_t(it.Mode >> 12)}
		copy(names, it.Name+"\x00")
		names = names[size:]
		if plus != 0 && it.Name != "." && it.Name != ".." {
			// (without an entry the kernel looks the name up when it needs it)
			if found, err := w.fs.Lookup(w.who, w.node, it.Name); err == nil {
				entry.entry = recordOf(found)
			}
		}
		w.entries = append(w.entries, entry)
		return true
	})
	if err == nil {
		err = wrong
	}
	return err
}

func (w *worker) getlk() error {
	lock, err := w.fs.Getlk(w.who, w.node, w.file, w.lock)
	return w.text(unsafe.Slice((*byte)(unsafe.Pointer(&lock)), unsafe.Sizeof(lock)), err)
}

func (w *worker) setlk() error {
	sleep := w.call.opcode == C.NIZWARF_SETLKW
	if w.call.has&C.NIZWARF_LK_FLOCK == 0 {
		return w.fs.Setlk(w.who, w.node, w.file, w.lock, sleep)
	}
	operation := syscall.LOCK_EX
	switch w.lock.Type {
	case syscall.F_RDLCK:
		operation = syscall.LOCK_SH
	case syscall.F_UNLCK:
		operation = syscall.LOCK_UN
	}
	if operation != syscall.LOCK_UN && !sleep {
		operation |= syscall.LOCK_NB
	}
	return w.fs.Flock(w.who, w.node, w.file, operation)
}

// From here on: notices.

// Wake makes the processes that have polled a file with this handle poll it again.
func (c *Connection) Wake(handle uint64) error {
	var notice [noticeSize]byte
	return c.server.notify(notice[:C.nizwarf_notice_poll(C.uint64_t(handle), unsafe.Pointer(&notice[0]), noticeSize)])
}

// InvalidateInode drops what the kernel has cached of a node: the attributes, and length bytes of the data from offset on,
// or all from there if length is 0. If offset is negative, only the attributes are dropped.
func (c *Connection) InvalidateInode(node uint64, offset, length int64) error {
	var notice [noticeSize]byte
	return c.server.notify(notice[:C.nizwarf_notice_inval_inode(C.uint64_t(node), C.int64_t(offset), C.int64_t(length),
		unsafe.Pointer(&notice[0]), noticeSize)])
}

// InvalidateEntry drops a name that the kernel has cached, so that it is looked up again.
func (c *Connection) InvalidateEntry(parent uint64, name string) error {
	notice, text := make([]byte, noticeSize+len(name)), append([]byte(name), 0)
	return c.server.notify(notice[:C.nizwarf_notice_inval_entry(C.uint64_t(parent), 0, (*C.char)(unsafe.Pointer(&text[0])),
		C.size_t(len(name)), unsafe.Pointer(&notice[0]), C.size_t(len(notice)))])
}
