package nizwarf

import (
	"encoding/binary"
	"errors"
	"fmt"
	"log"
	"runtime"
	"sync"
	"sync/atomic"
	"syscall"
)

// server is a file system and its session with one kernel, which any number of goroutines serve.
type server struct {
	fs      FileSystem
	device  int
	options atomic.Uint64
	// Goroutines read under this lock, so that a request is registered before the next one is read.
	reading sync.Mutex
	// How many goroutines read, or wait for that, and serve none.
	idle    atomic.Int32
	workers sync.WaitGroup
	failed  sync.Once
	failure error
	requests
	// Notices are sent under this lock, so that none is sent once Serve has returned and the descriptor may be closed.
	notices sync.RWMutex
	ended   bool
}

// requests are the running requests by their numbers: the channels that Request.Done returns.
type requests struct {
	mutex   sync.Mutex
	running map[uint64]chan struct{}
	stopped bool
}

// begin registers a request.
func (r *requests) begin(unique uint64) <-chan struct{} {
	r.mutex.Lock()
	defer r.mutex.Unlock()
	done := make(chan struct{})
	if r.stopped {
		close(done)
	} else {
		r.running[unique] = done
	}
	return done
}

// finish removes a request whose method has returned.
func (r *requests) finish(unique uint64) {
	r.mutex.Lock()
	defer r.mutex.Unlock()
	delete(r.running, unique)
}

// interrupt closes Done of a request. Without it the interrupt is late, because a request is read before its interrupts.
func (r *requests) interrupt(unique uint64) {
	r.mutex.Lock()
	defer r.mutex.Unlock()
	if done, ok := r.running[unique]; ok {
		close(done)
		delete(r.running, unique)
	}
}

// stop closes Done of all requests, also of those that follow.
func (r *requests) stop() {
	r.mutex.Lock()
	defer r.mutex.Unlock()
	r.stopped = true
	for unique, done := range r.running {
		close(done)
		delete(r.running, unique)
	}
}

// Serve serves the requests that come by a descriptor, one for each read(2): /dev/fuse, or a socket of type SOCK_SEQPACKET.
// It returns once the other end is closed, or the file system is unmounted, and all methods have returned.
func Serve(fs FileSystem, device int) error {
	return newServer(fs, device).serve()
}

func newServer(fs FileSystem, device int) *server {
	return &server{fs: fs, device: device, requests: requests{running: map[uint64]chan struct{}{}}}
}

func (s *server) serve() error {
	s.start()
	s.workers.Wait()
	if s.options.Load() != 0 { // the kernel has not ended the session
		if err := recovered(func() error { s.fs.Destroy(); return nil }); err != nil {
			log.Printf("nizwarf: %v", err)
		}
	}
	return s.failure
}

// start starts another goroutine that reads requests.
func (s *server) start() {
	s.workers.Add(1)
	s.idle.Add(1)
	go s.work()
}

// work serves requests until the end, or until enough other goroutines are idle. While one serves another reads, so that a
// method may wait, for instance for a lock.
func (s *server) work() {
	w := newWorker(s)
	defer s.workers.Done()
	defer w.free()
	for s.read(w) {
		if s.idle.Add(-1) == 0 {
			s.start()
		}
		reply := w.serve()
		s.finish(w.unique())
		if len(reply) > 0 {
			s.send(reply)
		}
		w.release()
		if int(s.idle.Load()) >= runtime.GOMAXPROCS(0) {
			return
		}
		s.idle.Add(1)
	}
}

// read reads and registers a request, and returns false at the end of the session. Linux sends an interrupt once its request
// has been read, so the request is registered by then.
func (s *server) read(w *worker) bool {
	s.reading.Lock()
	defer s.reading.Unlock()
	for {
		from := large.Get().(*buffer)
		size, err := syscall.Read(s.device, from.bytes())
		if err == nil && size > 0 {
			w.take(from, size)
			w.done = s.begin(w.unique())
			return true
		}
		large.Put(from)
		switch {
		case errors.Is(err, syscall.EINTR), errors.Is(err, syscall.ENOENT), errors.Is(err, syscall.EAGAIN):
			continue // the request was aborted
		case err != nil && !isEnd(err):
			s.failed.Do(func() { s.failure = fmt.Errorf("reading requests: %w", err) })
		}
		s.stop()
		s.end()
		return false
	}
}

// isEnd returns whether an error is the end of the connection.
func isEnd(err error) bool {
	return errors.Is(err, syscall.ENODEV) || errors.Is(err, syscall.ECONNABORTED) || errors.Is(err, syscall.ECONNRESET) ||
		errors.Is(err, syscall.EPIPE)
}

// send sends a reply. If Linux refuses it, the process that waits gets EIO.
func (s *server) send(reply []byte) {
	_, err := syscall.Write(s.device, reply)
	if err == nil || isEnd(err) || errors.Is(err, syscall.ENOENT) { // nobody waits for it any longer
		return
	}
	log.Printf("nizwarf: cannot send a reply: %v", err)
	// (an error of this one says that the process has its error already)
	_, _ = syscall.Write(s.device, fault(binary.LittleEndian.Uint64(reply[8:]), syscall.EIO))
}

// notify sends a notice. It may be called at any time, and without a server.
func (s *server) notify(notice []byte) error {
	if s == nil {
		return syscall.ENOTCONN
	}
	s.notices.RLock()
	defer s.notices.RUnlock()
	if s.ended || s.options.Load() == 0 {
		return syscall.ENOTCONN
	}
	_, err := syscall.Write(s.device, notice)
	if isEnd(err) {
		return syscall.ENOTCONN
	}
	return err
}

// end has later notices fail, and waits for the others. The kernel ends these with the connection.
func (s *server) end() {
	s.notices.Lock()
	defer s.notices.Unlock()
	s.ended = true
}

// fault returns a reply that is an error.
func fault(unique uint64, number syscall.Errno) []byte {
	reply := make([]byte, headerSize)
	binary.LittleEndian.PutUint32(reply, headerSize)
	binary.LittleEndian.PutUint32(reply[4:], uint32(-int32(number)))
	binary.LittleEndian.PutUint64(reply[8:], unique)
	return reply
}
