// Serves a descriptor by go-fuse's RawFileSystem, for others.py.
//
// Usage: go-fuse DESCRIPTOR
// The descriptor is a socket that keeps messages apart, in place of /dev/fuse. The file system is an empty
// root. Status 0: the session ended, and standard error says how; 2: it panicked, or could not start.
package main

import (
	"fmt"
	"os"
	"strconv"
	"syscall"

	"github.com/hanwen/go-fuse/v2/fuse"
)

type empty struct{ fuse.RawFileSystem }

func (*empty) GetAttr(_ <-chan struct{}, _ *fuse.GetAttrIn, out *fuse.AttrOut) fuse.Status {
	out.Ino = 1
	out.Mode = syscall.S_IFDIR | 0o755
	return fuse.OK
}

func (*empty) Lookup(_ <-chan struct{}, _ *fuse.InHeader, _ string, _ *fuse.EntryOut) fuse.Status {
	return fuse.ENOENT
}

func main() {
	if len(os.Args) != 2 || os.Args[1] == "--help" {
		fmt.Println("Usage: go-fuse DESCRIPTOR")
		os.Exit(len(os.Args) % 2 * 2)
	}
	descriptor, err := strconv.Atoi(os.Args[1])
	if err != nil {
		fmt.Fprintln(os.Stderr, err)
		os.Exit(2)
	}
	options := &fuse.MountOptions{MaxWrite: 1 << 20}
	server, err := fuse.NewServer(&empty{fuse.NewDefaultRawFileSystem()}, fmt.Sprintf("/dev/fd/%d", descriptor), options)
	if err != nil {
		fmt.Fprintln(os.Stderr, "the session ended:", err)
		return
	}
	server.Serve()
	fmt.Fprintln(os.Stderr, "the session ended")
}
