package main

// Unix sockets: that of the web server and that of the operator.

import (
	"errors"
	"fmt"
	"io/fs"
	"net"
	"os"
	"os/user"
	"strconv"
	"syscall"
)

// The most connections that wait in the system's queue until they are accepted. The system also bounds that by net.core.somaxconn.
const mostWaiting = 4096

// openSocket opens a Unix socket at a path. Only the daemon's user and root can write to it. The control socket stays so, and for the web server's socket
// setGroupAndMode sets another group and mode. It removes a socket that an ended daemon has left there. It fails as removeStale does, or if the system
// refuses the socket.
func openSocket(path string) (net.Listener, error) {
	if err := removeStale(path); err != nil {
		return nil, err
	}
	// (the socket must have this mode from the first moment on)
	old := syscall.Umask(0o177)
	defer syscall.Umask(old)
	return net.Listen("unix", path)
}

// lengthenQueue sets the length of a listener's queue to mostWaiting. Go takes the length from /proc/sys, and 128 where that is hidden, as by
// ProcSubset=pid of the daemon's unit. Where the queue of a Unix socket is full, a client that does not wait gets EAGAIN. A listener without a file
// descriptor stays as it is. It fails if the system refuses the new length.
func lengthenQueue(listener net.Listener) error {
	raw, isSystem := listener.(syscall.Conn)
	if !isSystem {
		return nil
	}
	connection, err := raw.SyscallConn()
	if err != nil {
		return err
	}
	var fault error
	err = connection.Control(func(number uintptr) { fault = syscall.Listen(int(number), mostWaiting) })
	if err == nil {
		err = fault
	}
	return err
}

// removeStale removes a socket that an ended daemon has left: one that refuses connections. Nothing else is removed: it fails if the file is no
// socket, if another daemon answers there, if connecting fails otherwise, as where the queue of another daemon is full, or if the file cannot be
// looked at or removed. Without a file at the path it does nothing.
func removeStale(path string) error {
	about, err := os.Lstat(path)
	if errors.Is(err, fs.ErrNotExist) {
		return nil
	}
	if err != nil {
		return err
	}
	if about.Mode().Type() != fs.ModeSocket {
		return fmt.Errorf("%s is there and is no socket", path)
	}
	connection, err := net.Dial("unix", path)
	if err == nil {
		connection.Close()
		return fmt.Errorf("%s: another daemon answers there", path)
	}
	if !errors.Is(err, syscall.ECONNREFUSED) {
		return err
	}
	return os.Remove(path)
}

// setGroupAndMode sets the group and the mode of the web server's socket, as `socket_group` and `socket_mode` say. It fails as groupOfSocket and
// modeOf do, or if the system refuses it.
func (c *config) setGroupAndMode(path string) error {
	if c.SocketGroup != "" {
		number, err := c.groupOfSocket()
		if err != nil {
			return err
		}
		// (-1 leaves its owner)
		if err := os.Chown(path, -1, number); err != nil {
			return err
		}
	}
	mode, err := modeOf(c.SocketMode)
	if err != nil {
		return err
	}
	return os.Chmod(path, mode)
}

// groupOfSocket returns the number of the group `socket_group`. It fails if there is no such group, or if this user cannot give a file to it: only root and
// members of the group can.
func (c *config) groupOfSocket() (int, error) {
	group, err := user.LookupGroup(c.SocketGroup)
	if err != nil {
		return 0, err
	}
	number, err := strconv.Atoi(group.Gid)
	if err != nil || os.Geteuid() == 0 || number == os.Getegid() {
		return number, err
	}
	groups, err := os.Getgroups()
	for _, each := range groups {
		if each == number {
			return number, nil
		}
	}
	if err == nil {
		err = fmt.Errorf(`"socket_group" is %s, and this user is not in it: usermod -aG %s USER`, c.SocketGroup, c.SocketGroup)
	}
	return 0, err
}
