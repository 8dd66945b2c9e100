// A file system of one file, `hello`.
package main

import (
	"context"
	"flag"
	"fmt"
	"os"
	"os/signal"
	"syscall"
	"time"

	"nizwarf"
)

const (
	hello = nizwarf.Root + 1
	text  = "Hello, world!\n"
)

type files struct{ nizwarf.Default }

func (files) Lookup(r *nizwarf.Request, parent uint64, name string) (nizwarf.Entry, error) {
	if parent != nizwarf.Root || name != "hello" {
		return nizwarf.Entry{}, syscall.ENOENT
	}
	return nizwarf.Entry{Node: hello, Attr: attr(hello), EntryTimeout: time.Second, AttrTimeout: time.Second}, nil
}

func (files) Getattr(r *nizwarf.Request, node uint64, file *nizwarf.File) (nizwarf.Attr, time.Duration, error) {
	return attr(node), time.Second, nil
}

func attr(node uint64) nizwarf.Attr {
	if node == nizwarf.Root {
		return nizwarf.Attr{Ino: node, Mode: syscall.S_IFDIR | 0555, Nlink: 1}
	}
	return nizwarf.Attr{Ino: node, Mode: syscall.S_IFREG | 0444, Nlink: 1, Size: uint64(len(text))}
}

func (files) Read(r *nizwarf.Request, node uint64, data []byte, offset uint64, file *nizwarf.File) (int, error) {
	if offset >= uint64(len(text)) {
		return 0, nil
	}
	return copy(data, text[offset:]), nil
}

func (files) Readdir(r *nizwarf.Request, node, offset uint64, file *nizwarf.File,
	add func(nizwarf.DirectoryEntry) bool) error {
	entries := []nizwarf.DirectoryEntry{{Name: ".", Ino: nizwarf.Root}, {Name: "..", Ino: nizwarf.Root},
		{Name: "hello", Ino: hello}}
	for ; offset < uint64(len(entries)); offset++ {
		entries[offset].Offset = offset + 1
		if !add(entries[offset]) {
			break
		}
	}
	return nil
}

func main() {
	device := flag.Int("fd", -1, "serve at the socket with this descriptor `N`, and mount nothing")
	flag.Usage = func() {
		fmt.Fprint(flag.CommandLine.Output(), "Usage: hello MOUNTPOINT, or hello --fd N\n"+
			"Mounts a file system with one file, and serves it until it is unmounted.\n"+
			"SIGINT and SIGTERM unmount it too.\n")
		flag.PrintDefaults()
	}
	flag.Parse()
	var err error
	switch {
	case *device >= 0 && flag.NArg() == 0:
		err = nizwarf.Serve(files{}, *device)
	case *device < 0 && flag.NArg() == 1:
		// (a second signal ends the process)
		ctx, stop := signal.NotifyContext(context.Background(), syscall.SIGINT, syscall.SIGTERM)
		go func() { <-ctx.Done(); stop() }()
		err = nizwarf.Mount(ctx, files{}, flag.Arg(0), nizwarf.MountOptions{Name: "hello"})
	default:
		flag.Usage()
		os.Exit(2)
	}
	if err != nil {
		fmt.Fprintln(os.Stderr, "hello:", err)
		os.Exit(1)
	}
}
