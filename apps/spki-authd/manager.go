package main

// What the daemon tells the service manager, systemd, and the socket that it may get from it.

import (
	"errors"
	"fmt"
	"io/fs"
	"net"
	"os"
	"os/user"
	"strconv"
	"strings"
	"syscall"
	"time"
)

// The variables of the environment that systemd sets for a program that it starts, and the number of the first open file that it hands over.
const (
	envNotify  = "NOTIFY_SOCKET"
	envProcess = "LISTEN_PID"
	envSockets = "LISTEN_FDS"
	firstFile  = 3
)

// For how long a message to the service manager may wait for room in its queue. The main loop does nothing else meanwhile.
const timeToNotify = time.Second

// notify sends a message to the service manager, if there is one: READY=1, RELOADING=1, STOPPING=1 or STATUS=TEXT, one a line, as sd_notify(3) has them.
// It fails if the manager cannot be reached, or takes no message in timeToNotify.
func notify(message string) error {
	path := os.Getenv(envNotify)
	if path == "" {
		return nil
	}
	connection, err := net.Dial("unixgram", path)
	if err != nil {
		return err
	}
	defer connection.Close()
	if err := connection.SetDeadline(time.Now().Add(timeToNotify)); err != nil {
		return err
	}
	_, err = connection.Write([]byte(message))
	return err
}

// inheritedSocket returns the socket that the service manager has opened, or nil if it has not. In such a socket, connections wait while the daemon
// is started again. It fails if the manager hands over another number of sockets than one, or if that one takes no connections.
func inheritedSocket() (net.Listener, error) {
	if os.Getenv(envProcess) != strconv.Itoa(os.Getpid()) {
		return nil, nil
	}
	if count := os.Getenv(envSockets); count != "1" {
		return nil, fmt.Errorf("the service manager hands over %s sockets, and must hand over one", count)
	}
	// (a listener would also be made of a Unix socket that does not listen)
	if listens, err := syscall.GetsockoptInt(firstFile, syscall.SOL_SOCKET, syscall.SO_ACCEPTCONN); err != nil || listens == 0 {
		return nil, errors.New("what the service manager hands over is no socket that takes connections")
	}
	file := os.NewFile(firstFile, "the socket of the service manager")
	defer file.Close()
	return net.FileListener(file)
}

// checkInherited returns an error if a socket of the service manager is not at the address of the configuration, or, for a Unix socket, if it cannot
// be looked at, or if checkGroup or checkMode does for its present group and mode.
func (c *config) checkInherited(listener net.Listener) error {
	address := listener.Addr()
	inherited := unixScheme + address.String()
	if address.Network() != "unix" {
		inherited = tlsScheme + address.String()
	}
	if c.Listen != inherited {
		return fmt.Errorf(`the service manager hands over %s, and "listen" is %q`, inherited, c.Listen)
	}
	path := strings.TrimPrefix(c.Listen, unixScheme)
	if path == c.Listen {
		return nil
	}
	about, err := os.Stat(path)
	if err != nil {
		return err
	}
	if err := c.checkGroup(about); err != nil {
		return err
	}
	return c.checkMode(about.Mode().Perm())
}

// checkGroup returns an error if a socket has another group than `socket_group`, or if there is no group of that name. Without `socket_group` each
// group is right. `about` is what Stat says of the socket.
func (c *config) checkGroup(about fs.FileInfo) error {
	if c.SocketGroup == "" {
		return nil
	}
	group, err := user.LookupGroup(c.SocketGroup)
	if err != nil {
		return err
	}
	if system, isKnown := about.Sys().(*syscall.Stat_t); !isKnown || group.Gid != strconv.Itoa(int(system.Gid)) {
		return fmt.Errorf(`"socket_group" is %s, and the service manager gives the socket to another one: write SocketGroup in its unit`, c.SocketGroup)
	}
	return nil
}
