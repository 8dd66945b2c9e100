package nizwarf

import (
	"bytes"
	"context"
	"encoding/binary"
	"errors"
	"fmt"
	"io"
	"log"
	"os"
	"reflect"
	"strings"
	"sync"
	"sync/atomic"
	"syscall"
	"testing"
	"time"
	"unsafe"
)

// memory is a file system of files in its root, which records the handles and lookups that were released and forgotten.
type memory struct {
	Default
	files    map[string][]byte
	released []uint64
	forgot   map[uint64]uint64
	want     uint64
	waiting  chan Lock
}

func newMemory() *memory {
	return &memory{files: map[string][]byte{"a": []byte("text")}, forgot: map[uint64]uint64{},
		waiting: make(chan Lock)}
}

func (m *memory) Init(c *Connection) error {
	c.Want |= m.want
	return nil
}

func (m *memory) Lookup(r *Request, parent uint64, name string) (Entry, error) {
	if _, ok := m.files[name]; !ok {
		return Entry{}, &os.PathError{Op: "lookup", Path: name, Err: syscall.ENOENT}
	}
	return Entry{Node: uint64(name[0]), AttrTimeout: 1500 * time.Millisecond}, nil
}

func (m *memory) Forget(r *Request, node, count uint64) { m.forgot[node] += count }

func (m *memory) Getattr(r *Request, node uint64, file *File) (Attr, time.Duration, error) {
	return Attr{Ino: Root, Mode: syscall.S_IFDIR | 0755, Nlink: 2}, 0, nil
}

func (m *memory) Create(r *Request, parent uint64, name string, mode, flags uint32) (Entry, Opened, error) {
	m.files[name] = nil
	e, err := m.Lookup(r, parent, name)
	return e, Opened{Handle: 7}, err
}

func (m *memory) Release(r *Request, node uint64, file *File) error {
	m.released = append(m.released, file.Handle)
	return nil
}

func (m *memory) Read(r *Request, node uint64, data []byte, offset uint64, file *File) (int, error) {
	return bytes.NewReader(m.files[string(rune(node))]).ReadAt(data, int64(offset))
}

func (m *memory) Write(r *Request, node uint64, data []byte, offset uint64, file *File) (int, error) {
	name := string(rune(node))
	m.files[name] = append(m.files[name][:offset:offset], data...)
	return len(data), nil
}

func (m *memory) Readdir(r *Request, node, offset uint64, file *File, add func(DirectoryEntry) bool) error {
	for i, name := range []string{".", "a", "b"}[offset:] {
		if !add(DirectoryEntry{Name: name, Offset: offset + uint64(i) + 1, Ino: 1, Mode: syscall.S_IFREG}) {
			break
		}
	}
	return nil
}

// wrong has methods whose results Linux would refuse.
type wrong struct{ Default }

func (wrong) Lookup(*Request, uint64, string) (Entry, error)             { return Entry{}, syscall.Errno(512) }
func (wrong) Unlink(*Request, uint64, string) error                      { panic("unlink") }
func (wrong) Rmdir(*Request, uint64, string) error                       { return errors.New("no number") }
func (wrong) Readlink(*Request, uint64) (string, error)                  { return strings.Repeat("a", 4096), nil }
func (wrong) Read(*Request, uint64, []byte, uint64, *File) (int, error)  { return 1 << 20, nil }
func (wrong) Write(*Request, uint64, []byte, uint64, *File) (int, error) { return 4, nil }
func (wrong) Getxattr(*Request, uint64, string) ([]byte, error)          { return make([]byte, 9), nil }
func (wrong) Ioctl(*Request, uint64, uint32, uint64, *File, uint32, []byte, uint32) (int32, []byte, error) {
	return 0, make([]byte, 2<<20), nil
}
func (wrong) Readdir(_ *Request, _, _ uint64, _ *File, add func(DirectoryEntry) bool) error {
	add(DirectoryEntry{Name: "a\x00b", Offset: 1})
	return nil
}

// kernel plays the kernel at the other end of a socket.
type kernel struct {
	*testing.T
	device int
	unique uint64
	served chan error
}

// begin serves a file system, and begins its session with these options. The end of the test ends it.
func begin(t *testing.T, fs FileSystem, options uint64) *kernel {
	log.SetOutput(io.Discard)
	ends, err := syscall.Socketpair(syscall.AF_UNIX, syscall.SOCK_SEQPACKET|syscall.SOCK_CLOEXEC, 0)
	if err != nil {
		t.Fatal(err)
	}
	k := &kernel{T: t, device: ends[0], served: make(chan error, 1)}
	go func() {
		k.served <- Serve(fs, ends[1])
		syscall.Close(ends[1])
	}()
	t.Cleanup(func() {
		syscall.Close(ends[0])
		if err := <-k.served; err != nil {
			t.Error(err)
		}
	})
	k.init(options)
	return k
}

// init begins the session again with these options, and returns those that were negotiated.
func (k *kernel) init(options uint64) uint64 {
	const extended = 1 << 30
	options |= extended
	reply := k.call(26, 0, pack(uint32(7), uint32(45), uint32(0), uint32(options), uint32(options>>32), [44]byte{}), 0)
	return uint64(binary.LittleEndian.Uint32(reply[12:])&^extended) | uint64(binary.LittleEndian.Uint32(reply[32:]))<<32
}

func pack(values ...any) []byte {
	var packed bytes.Buffer
	for _, it := range values {
		if text, ok := it.(string); ok {
			it = []byte(text)
		}
		if err := binary.Write(&packed, binary.LittleEndian, it); err != nil {
			panic(err)
		}
	}
	return packed.Bytes()
}

func (k *kernel) send(opcode uint32, node uint64, body []byte) {
	k.unique++
	request := pack(uint32(40+len(body)), opcode, k.unique, node, uint32(1), uint32(2), uint32(3), uint32(0), body)
	if _, err := syscall.Write(k.device, request); err != nil {
		k.Fatal(err)
	}
}

// call returns the body of the reply, which must have this error.
func (k *kernel) call(opcode uint32, node uint64, body []byte, expected syscall.Errno) []byte {
	k.Helper()
	k.send(opcode, node, body)
	reply := make([]byte, bufferSize)
	size, err := syscall.Read(k.device, reply)
	if err != nil || size < headerSize || int(binary.LittleEndian.Uint32(reply)) != size {
		k.Fatalf("a reply of %d bytes to %d: %v", size, opcode, err)
	}
	if !bytes.Equal(reply[4:headerSize], fault(k.unique, expected)[4:]) {
		k.Fatalf("the reply to %d is % x", opcode, reply[:headerSize])
	}
	return reply[headerSize:size]
}

var (
	readBody  = pack(uint64(0), uint64(1), uint32(100), uint32(0), uint64(0), uint64(0))
	writeBody = pack(uint64(0), uint64(2), uint32(3), uint32(0), uint64(0), uint64(0), "abc")
)

func TestStructsHaveTheLayoutOfTheLibrary(t *testing.T) {
	for _, pair := range layouts {
		ours, theirs := reflect.TypeOf(pair[0]), reflect.TypeOf(pair[1])
		if ours.NumField() != theirs.NumField() || ours.Size() != theirs.Size() {
			t.Fatalf("%v has another size than %v", ours, theirs)
		}
		for i := 0; i < ours.NumField(); i++ {
			a, b := ours.Field(i), theirs.Field(i)
			if a.Offset != b.Offset || a.Type.Size() != b.Type.Size() || a.Name != "_" &&
				!strings.EqualFold(a.Name, strings.NewReplacer("tv_", "", "_", "").Replace(b.Name)) {
				t.Errorf("%v: %v is not %v", ours, a, b)
			}
		}
	}
}

func TestFilesAreFoundReadAndWritten(t *testing.T) {
	k := begin(t, newMemory(), 0)
	entry := k.call(1, Root, pack("a\x00"), 0)
	if len(entry) != 128 || !bytes.Equal(entry[:8], pack(uint64('a'))) ||
		!bytes.Equal(entry[24:40], pack(uint64(1), uint32(0), uint32(5e8))) {
		t.Errorf("entry % x", entry)
	}
	k.call(1, Root, pack("c\x00"), syscall.ENOENT)
	if count := k.call(16, 'a', writeBody, 0); !bytes.Equal(count, pack(uint32(3), uint32(0))) {
		t.Errorf("count % x", count)
	}
	if data := k.call(15, 'a', readBody, 0); string(data) != "eabc" {
		t.Errorf("data %q", data)
	}
}

func TestReaddirplusLooksEntriesUp(t *testing.T) {
	m := newMemory()
	m.want = WantReaddirplus
	k := begin(t, m, WantReaddirplus)
	// The second entry has been looked up; the third one has no file.
	plus := k.call(44, Root, pack(uint64(0), uint64(0), uint32(4096), uint32(0), uint64(0), uint64(0)), 0)
	if len(plus) != 480 || plus[160] != 'a' || plus[320] != 0 {
		t.Errorf("entries % x", plus)
	}
}

func TestWhatIsMissingIsENOSYSOrSucceeds(t *testing.T) {
	k := begin(t, struct{ Default }{}, 0)
	for opcode, expected := range map[uint32]syscall.Errno{3: syscall.ENOSYS, 16: syscall.ENOSYS, 14: 0, 18: 0, 27: 0, 29: 0,
		17: 0, 31: syscall.ENOSYS, 37: syscall.ENOSYS, 39: syscall.ENOSYS, 40: syscall.ENOSYS, 51: syscall.ENOSYS,
		52: syscall.ENOSYS, 9999: syscall.ENOSYS} {
		k.call(opcode, Root, make([]byte, 64), expected)
	}
}

func TestWhatLinuxWouldRefuseIsAnError(t *testing.T) {
	k := begin(t, wrong{}, 0)
	for _, it := range []struct {
		opcode   uint32
		body     []byte
		expected syscall.Errno
	}{{1, pack("a\x00"), syscall.EIO}, {10, pack("a\x00"), syscall.EIO}, {11, pack("a\x00"), syscall.EIO},
		{5, nil, syscall.EIO}, {15, readBody, syscall.EIO}, {16, writeBody, syscall.EIO}, {28, readBody, syscall.EIO},
		{39, pack([28]byte{}, uint32(2)), syscall.EIO}, {39, pack([28]byte{}, uint32(1<<31)), syscall.ERANGE},
		{22, pack(uint64(8), "a\x00"), syscall.ERANGE}, {22, pack(uint64(9), "a\x00"), 0}, {22, pack(uint64(0), "a\x00"), 0}} {
		k.call(it.opcode, 1, it.body, it.expected)
	}
}

// panics has methods without a reply that panic: Forget for node 5.
type panics struct {
	Default
	forgot chan uint64
}

func (p *panics) Destroy() { panic("destroy") }
func (p *panics) Forget(r *Request, node, count uint64) {
	if node == 5 {
		panic("forget")
	}
	p.forgot <- node
}
func (p *panics) Release(*Request, uint64, *File) error { panic("release") }
func (p *panics) Create(*Request, uint64, string, uint32, uint32) (Entry, Opened, error) {
	return Entry{Node: 5}, Opened{Handle: 7}, nil
}

func TestAPanicOfAMethodWithoutAReplyEndsNothing(t *testing.T) {
	p := &panics{forgot: make(chan uint64, 1)}
	k := begin(t, p, 0)
	k.send(42, 0, pack(uint32(2), uint32(0), uint64(5), uint64(1), uint64(6), uint64(1))) // BATCH_FORGET
	k.send(2, 5, pack(uint64(1)))                                                         // FORGET
	k.call(17, Root, nil, 0)
	w := newWorker(newServer(p, -1))
	defer w.free()
	w.smallReply.size = 20
	request := pack(uint32(58), uint32(35), uint64(5), uint64(Root), uint64(0), uint32(3), uint32(0), uint64(0), uint64(0), "b\x00")
	w.requestSize = copy(w.request.bytes(), request)
	// (the reply does not fit: the file is released and its node forgotten)
	if reply := w.serve(); !bytes.Equal(reply, fault(5, syscall.EIO)) {
		t.Errorf("reply % x", reply)
	}
	if node := <-p.forgot; node != 6 {
		t.Error(node)
	}
}

func TestWhatTheKernelDoesNotGetIsReleasedAndForgotten(t *testing.T) {
	m := newMemory()
	w := newWorker(newServer(m, -1))
	defer w.free()
	w.smallReply.size = 20
	log.SetOutput(io.Discard)
	// A CREATE, whose reply does not fit.
	request := pack(uint32(58), uint32(35), uint64(5), uint64(Root), uint64(0), uint32(3), uint32(0), uint64(0), uint64(0), "b\x00")
	w.requestSize = copy(w.request.bytes(), request)
	if reply := w.serve(); !bytes.Equal(reply, fault(5, syscall.EIO)) {
		t.Errorf("reply % x", reply)
	}
	if fmt.Sprint(m.released, m.forgot) != "[7] map[98:1]" {
		t.Error(m.released, m.forgot)
	}
}

func TestOptionsAreNegotiatedIfTheyAreWantedAndServed(t *testing.T) {
	for _, it := range []struct{ want, capable, expected uint64 }{
		{0, 1 << 3, 0}, {WantAtomicTruncate, 1 << 3, 1 << 3}, {WantAtomicTruncate, 0, 0}, {1 << 33, 1 << 33, 0},
		{0, WantIDMap, 0}, {WantIDMap, WantIDMap, WantIDMap}, {0, 1, 1}, {1 << 38, 1 << 38, 1 << 38}, {0, 1 << 38, 0}} {
		m := newMemory()
		m.want = it.want
		if negotiated := begin(t, m, 0).init(it.capable); negotiated != it.expected {
			t.Errorf("%x: %x", it, negotiated)
		}
	}
}

func (m *memory) Getlk(r *Request, node uint64, file *File, lock Lock) (Lock, error) {
	return Lock{Start: 1, End: 2, Type: syscall.F_WRLCK, PID: 3}, nil
}

func (m *memory) Setlk(r *Request, node uint64, file *File, lock Lock, sleep bool) error {
	if sleep {
		m.waiting <- lock
	}
	return nil
}

func TestALockThatIsWaitedForHoldsUpNobody(t *testing.T) {
	m := newMemory()
	k := begin(t, m, 0)
	lock := pack(uint64(1), uint64(9), uint64(5), uint64(6), uint32(syscall.F_RDLCK), uint32(4), uint64(0))
	if got := k.call(31, 'a', lock, 0); !bytes.Equal(got, pack(uint64(1), uint64(2), uint32(syscall.F_WRLCK), uint32(3))) {
		t.Errorf("lock % x", got)
	}
	k.call(32, 'a', pack(lock[:40], uint32(1), uint32(0)), syscall.ENOSYS) // a lock of flock(2)
	k.send(33, 'a', lock)
	waits := k.unique
	k.call(3, Root, make([]byte, 16), 0)
	if got := <-m.waiting; got != (Lock{5, 6, syscall.F_RDLCK, 4}) {
		t.Error(got)
	}
	reply := make([]byte, 100)
	if size, err := syscall.Read(k.device, reply); err != nil || !bytes.Equal(reply[:size], fault(waits, 0)) {
		t.Errorf("reply % x, %v", reply[:size], err)
	}
}

const pollIn = 1

// pipe has a file `a` that is readable once something has happened, and records the arguments of methods.
type pipe struct {
	Default
	connection *Connection
	early      error
	arguments  string
	handles    chan uint64
	happened   atomic.Bool
	lookups    atomic.Int32
}

func (p *pipe) Init(c *Connection) error {
	p.connection, p.early = c, c.Wake(1)
	return nil
}

func (p *pipe) Lookup(r *Request, parent uint64, name string) (Entry, error) {
	p.lookups.Add(1)
	attr, _, _ := p.Getattr(r, 'a', nil)
	return Entry{Node: 'a', Attr: attr, EntryTimeout: time.Hour}, nil
}

func (p *pipe) Getattr(r *Request, node uint64, file *File) (Attr, time.Duration, error) {
	if node == Root {
		return Attr{Ino: Root, Mode: syscall.S_IFDIR | 0755, Nlink: 2}, 0, nil
	}
	return Attr{Ino: node, Mode: syscall.S_IFREG | 0644, Nlink: 1}, 0, nil
}

func (p *pipe) Bmap(r *Request, node uint64, blockSize uint32, block uint64) (uint64, error) {
	p.arguments = fmt.Sprint(node, blockSize, block)
	return 1 << 40, nil
}

func (p *pipe) Ioctl(r *Request, node uint64, command uint32, argument uint64, file *File, flags uint32, input []byte,
	size uint32) (int32, []byte, error) {
	p.arguments = fmt.Sprint(node, command, argument, *file, flags, input, size)
	return -1, []byte("out"), nil
}

func (p *pipe) Poll(r *Request, node uint64, file *File, events uint32, handle uint64, notify bool) (uint32, error) {
	p.arguments = fmt.Sprint(node, *file, events, handle, notify)
	if p.happened.Load() {
		return pollIn, nil
	}
	if notify {
		p.handles <- handle
	}
	return 0, nil
}

func (p *pipe) Statx(r *Request, node uint64, flags, mask uint32, file *File) (Statx, time.Duration, error) {
	p.arguments = fmt.Sprint(node, flags, mask, *file)
	return Statx{Mask: mask, Btime: StatxTime{Sec: 5}, DevMinor: 6}, 1500 * time.Millisecond, nil
}

func TestOptionalOperationsHaveTheirArgumentsAndResults(t *testing.T) {
	p := &pipe{handles: make(chan uint64, 2)}
	k := begin(t, p, 0)
	for _, it := range []struct {
		opcode    uint32
		body      []byte
		arguments string
		expected  []byte
	}{
		{37, pack(uint64(5), uint32(512), uint32(0)), "97 512 5", pack(uint64(1 << 40))},
		{39, pack(uint64(9), uint32(16), uint32(77), uint64(4), uint32(2), uint32(8), "in"), "97 77 4 {9 0 0} 16 [105 110] 8",
			pack(int32(-1), uint32(0), uint64(0), "out")},
		{40, pack(uint64(9), uint64(6), uint32(1), uint32(4)), "97 {9 0 0} 4 6 true", pack(uint64(0))},
		{40, pack(uint64(9), uint64(6), uint32(0), uint32(4)), "97 {9 0 0} 4 6 false", pack(uint64(0))},
		{52, pack(uint32(1), uint32(0), uint64(9), uint32(2), uint32(0x800)), "97 2 2048 {9 0 0}",
			pack(uint64(1), uint32(5e8), [20]byte{}, uint32(0x800), [76]byte{}, uint64(5), [52]byte{}, uint32(6), [112]byte{})},
	} {
		if reply := k.call(it.opcode, 'a', it.body, 0); !bytes.Equal(reply, it.expected) || p.arguments != it.arguments {
			t.Errorf("%d: % x, %s", it.opcode, reply, p.arguments)
		}
	}
}

func TestNoticesAreSentFromAnyGoroutineUntilTheEnd(t *testing.T) {
	p := &pipe{}
	k := begin(t, p, 0)
	if none := (&Connection{}).Wake(1); p.early != syscall.ENOTCONN || none != syscall.ENOTCONN {
		t.Error(p.early, none)
	}
	for _, it := range []struct {
		send     func() error
		expected []byte
	}{
		{func() error { return p.connection.Wake(6) }, pack(uint32(24), uint32(1), uint64(0), uint64(6))},
		{func() error { return p.connection.InvalidateInode(7, -1, 2) },
			pack(uint32(40), uint32(2), uint64(0), uint64(7), int64(-1), int64(2))},
		{func() error { return p.connection.InvalidateEntry(Root, "name") },
			pack(uint32(37), uint32(3), uint64(0), uint64(Root), uint32(4), uint32(0), "name\x00")},
	} {
		if err := it.send(); err != nil {
			t.Error(err)
		}
		notice := make([]byte, 100)
		if size, err := syscall.Read(k.device, notice); err != nil || !bytes.Equal(notice[:size], it.expected) {
			t.Errorf("notice % x, %v", notice[:size], err)
		}
	}
	var senders sync.WaitGroup
	for i := 0; i < 4; i++ {
		senders.Add(1)
		go func() {
			defer senders.Done()
			for p.connection.Wake(6) == nil {
			}
		}()
	}
	if err := syscall.Shutdown(k.device, syscall.SHUT_RDWR); err != nil {
		t.Fatal(err)
	}
	senders.Wait()
	k.served <- <-k.served
	if err := p.connection.InvalidateEntry(Root, ""); err != syscall.ENOTCONN {
		t.Error(err)
	}
}

func TestAMountIsPolledAndInvalidated(t *testing.T) {
	if _, err := os.Stat("/dev/fuse"); err != nil || os.Getuid() != 0 {
		t.Skip("requires root and /dev/fuse")
	}
	p, folder, served := &pipe{handles: make(chan uint64)}, t.TempDir(), make(chan error, 1)
	name := folder + "/a"
	ctx, unmount := context.WithCancel(context.Background())
	go func() {
		served <- Mount(ctx, p, folder, MountOptions{})
		close(served)
	}()
	end := func() {
		unmount()
		if err := <-served; err != nil {
			t.Error(err)
		}
	}
	defer end()
	for syscall.Access(name, 4) != nil {
		select {
		case err := <-served:
			t.Fatal(err)
		case <-time.After(time.Millisecond):
		}
	}
	// (package os would have the runtime poll the file)
	file, err := syscall.Open(name, syscall.O_RDONLY|syscall.O_CLOEXEC, 0)
	if err != nil {
		t.Fatal(err)
	}
	go func() {
		handle := <-p.handles
		p.happened.Store(true)
		if err := p.connection.Wake(handle); err != nil {
			t.Error(err)
		}
	}()
	waiting := struct {
		file            int32
		events, revents int16
	}{int32(file), pollIn, 0}
	if count, _, err := syscall.Syscall(syscall.SYS_POLL, uintptr(unsafe.Pointer(&waiting)), 1, 20000); count != 1 ||
		waiting.revents != pollIn {
		t.Error(count, waiting, err)
	}
	syscall.Close(file)
	before := p.lookups.Load()
	if err := p.connection.InvalidateEntry(Root, "a"); err != nil {
		t.Error(err)
	}
	if err := syscall.Access(name, 4); err != nil || p.lookups.Load() != before+1 {
		t.Error(err, p.lookups.Load(), before)
	}
	if err := p.connection.InvalidateInode('a', 0, 0); err != nil {
		t.Error(err)
	}
	for _, err := range []error{p.connection.InvalidateEntry(Root, "b"), p.connection.InvalidateInode('b', 0, 0)} {
		if err != syscall.ENOENT {
			t.Error(err)
		}
	}
	end()
	if err := p.connection.Wake(1); err != syscall.ENOTCONN {
		t.Error(err)
	}
}

func TestAMountThatFailsSaysWhere(t *testing.T) {
	err := Mount(context.Background(), Default{}, "/none", MountOptions{})
	if !errors.Is(err, syscall.ENOENT) || !strings.Contains(err.Error(), "/none") {
		t.Error(err)
	}
}

// waiter has locks that nobody gets: Setlk waits until Done is closed.
type waiter struct {
	pipe
	waits chan struct{}
}

func (w *waiter) Init(c *Connection) error {
	c.Want |= WantPosixLocks
	return nil
}

func (w *waiter) Setlk(r *Request, node uint64, file *File, lock Lock, sleep bool) error {
	if lock.Type == syscall.F_UNLCK {
		return nil
	}
	select {
	case w.waits <- struct{}{}:
	default:
	}
	<-r.Done()
	return syscall.EINTR
}

func TestAnInterruptAtOnceEndsARequestThatWaits(t *testing.T) {
	w := &waiter{}
	k := begin(t, w, WantPosixLocks)
	lock := pack(uint64(1), uint64(9), uint64(5), uint64(6), uint32(syscall.F_RDLCK), uint32(4), uint64(0))
	for i := 0; i < 2000; i++ {
		k.send(33, 'a', lock)
		waits := k.unique
		k.send(36, 0, pack(waits))
		k.send(36, 0, pack(waits)) // late, or a second one
		reply := make([]byte, 100)
		if size, err := syscall.Read(k.device, reply); err != nil || !bytes.Equal(reply[:size], fault(waits, syscall.EINTR)) {
			t.Fatalf("reply % x, %v", reply[:size], err)
		}
	}
}

func TestTheEndOfASessionEndsRequestsThatWait(t *testing.T) {
	ends, err := syscall.Socketpair(syscall.AF_UNIX, syscall.SOCK_SEQPACKET|syscall.SOCK_CLOEXEC, 0)
	if err != nil {
		t.Fatal(err)
	}
	defer syscall.Close(ends[1])
	w, served := &waiter{waits: make(chan struct{}, 1)}, make(chan error, 1)
	go func() { served <- Serve(w, ends[1]) }()
	k := &kernel{T: t, device: ends[0]}
	k.init(WantPosixLocks)
	k.send(33, 'a', pack(uint64(1), uint64(9), uint64(5), uint64(6), uint32(0), uint32(4), uint64(0)))
	<-w.waits
	syscall.Close(ends[0])
	select {
	case err := <-served:
		if err != nil {
			t.Error(err)
		}
	case <-time.After(20 * time.Second):
		t.Fatal("Serve did not return")
	}
}

func TestARequestWithoutDataKeepsNoLargeBuffer(t *testing.T) {
	w := newWorker(newServer(Default{}, -1))
	defer w.free()
	from := large.Get().(*buffer)
	w.take(from, copy(from.bytes(), pack(uint32(40), uint32(33), uint64(2), [24]byte{})))
	if w.request.size != smallSize || w.reply.size != smallSize || w.unique() != 2 {
		t.Error(w.request.size, w.reply.size, w.unique())
	}
}
