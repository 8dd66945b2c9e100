package nizwarf

import (
	"context"
	"errors"
	"fmt"
	"os"
	"os/exec"
	"strings"
	"syscall"
)

// MountOptions says how a file system is mounted.
type MountOptions struct {
	// Name is the source that mount(8) lists, by default nizwarf.
	Name string
	// AllowOther lets other users use the mount. For users other than root, /etc/fuse.conf must allow this.
	ReadOnly, AllowOther bool
	// NoDefaultPermissions leaves it to the file system to check permissions.
	NoDefaultPermissions bool
}

// Mount mounts a file system, and serves it until it is unmounted. The end of the context closes Request.Done of all requests,
// and unmounts the file system lazily: Mount returns once the last open file, working directory and copy in another mount
// namespace is gone. So a program should let a second signal end it. Without the permission for mount(2) Mount requires the
// program fusermount3.
func Mount(ctx context.Context, fs FileSystem, mountpoint string, options MountOptions) error {
	if options.Name == "" {
		options.Name = "nizwarf"
	}
	unmount := unmountDirectly
	device, err := mountDirectly(mountpoint, &options)
	if errors.Is(err, os.ErrPermission) {
		unmount = unmountByFusermount
		device, err = mountByFusermount(mountpoint, &options)
	}
	if err != nil {
		return err
	}
	defer syscall.Close(device)
	s, served := newServer(fs, device), make(chan error, 1)
	go func() { served <- s.serve() }()
	select {
	case err = <-served:
		if err == nil { // it was unmounted
			return nil
		}
	case <-ctx.Done():
		s.stop()
	}
	if failure := unmount(mountpoint); failure != nil {
		return &os.PathError{Op: "unmount", Path: mountpoint, Err: failure}
	}
	if err == nil {
		err = <-served
	}
	return err
}

// list returns the options that mount(2) and fusermount3 have in common.
func (options *MountOptions) list() string {
	words := ""
	if options.AllowOther {
		words += ",allow_other"
	}
	if !options.NoDefaultPermissions {
		words += ",default_permissions"
	}
	return words
}

// mountDirectly mounts by mount(2), and returns the descriptor of the device.
func mountDirectly(mountpoint string, options *MountOptions) (int, error) {
	var st syscall.Stat_t
	if err := syscall.Stat(mountpoint, &st); err != nil {
		return -1, &os.PathError{Op: "mount", Path: mountpoint, Err: err}
	}
	device, err := syscall.Open("/dev/fuse", syscall.O_RDWR|syscall.O_CLOEXEC, 0)
	if err != nil {
		return -1, &os.PathError{Op: "open", Path: "/dev/fuse", Err: err}
	}
	data := fmt.Sprintf("fd=%d,rootmode=%o,user_id=%d,group_id=%d", device, st.Mode&syscall.S_IFMT, os.Getuid(), os.Getgid())
	flags := uintptr(syscall.MS_NOSUID | syscall.MS_NODEV)
	if options.ReadOnly {
		flags |= syscall.MS_RDONLY
	}
	if err := syscall.Mount(options.Name, mountpoint, "fuse."+options.Name, flags, data+options.list()); err != nil {
		syscall.Close(device)
		return -1, &os.PathError{Op: "mount", Path: mountpoint, Err: err}
	}
	return device, nil
}

func unmountDirectly(mountpoint string) error {
	return syscall.Unmount(mountpoint, syscall.MNT_DETACH)
}

// mountByFusermount mounts by fusermount3, which sends the descriptor of the device over a socket.
func mountByFusermount(mountpoint string, options *MountOptions) (int, error) {
	ends, err := syscall.Socketpair(syscall.AF_UNIX, syscall.SOCK_STREAM|syscall.SOCK_CLOEXEC, 0)
	if err != nil {
		return -1, os.NewSyscallError("socketpair", err)
	}
	defer syscall.Close(ends[0])
	theirs := os.NewFile(uintptr(ends[1]), "socket")
	// (a comma ends an option)
	name := strings.NewReplacer(`\`, `\\`, ",", `\,`).Replace(options.Name)
	words := "fsname=" + name + ",subtype=" + name + options.list()
	if options.ReadOnly {
		words += ",ro"
	}
	command := exec.Command("fusermount3", "-o", words, "--", mountpoint)
	// The first of the files is descriptor 3.
	command.ExtraFiles, command.Env = []*os.File{theirs}, append(os.Environ(), "_FUSE_COMMFD=3")
	err = run(command)
	theirs.Close()
	if err == nil {
		var device int
		if device, err = receive(ends[0]); err == nil {
			return device, nil
		}
		_ = unmountByFusermount(mountpoint)
	}
	return -1, &os.PathError{Op: "mount", Path: mountpoint, Err: err}
}

func unmountByFusermount(mountpoint string) error {
	return run(exec.Command("fusermount3", "-u", "-q", "-z", "--", mountpoint))
}

// run runs a program. Its messages are part of the error.
func run(command *exec.Cmd) error {
	said, err := command.CombinedOutput()
	if err != nil && len(said) > 0 {
		return fmt.Errorf("%s (%w)", strings.TrimSpace(string(said)), err)
	}
	return err
}

// receive receives a descriptor.
func receive(socket int) (int, error) {
	control := make([]byte, syscall.CmsgSpace(4))
	_, size, _, _, err := syscall.Recvmsg(socket, make([]byte, 1), control, syscall.MSG_CMSG_CLOEXEC)
	if err != nil {
		return -1, os.NewSyscallError("recvmsg", err)
	}
	if messages, err := syscall.ParseSocketControlMessage(control[:size]); err == nil && len(messages) == 1 {
		if descriptors, err := syscall.ParseUnixRights(&messages[0]); err == nil && len(descriptors) == 1 {
			return descriptors[0], nil
		}
	}
	return -1, errors.New("fusermount3 sent no descriptor")
}
