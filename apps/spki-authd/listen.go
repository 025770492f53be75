package main

// The entrance: the Unix socket, or the port with TLS, at which the web server asks.

import (
	"errors"
	"fmt"
	"io/fs"
	"net"
	"strconv"
	"strings"
)

// What begins the name of a Unix socket, and the address of a port with TLS.
const (
	unixScheme = "unix:"
	tlsScheme  = "tls:"
)

// The most octets of the path of a Unix socket: Linux has room for 108, with a zero at the end.
const mostSocketPath = 107

// checkEntrance returns an error if `listen` or a field for it is wrong. Only the web server may be able to ask, and it must know that this daemon
// answers: by the folder of a Unix socket, or by a certificate for TLS. The port is a number from 1 on: 0 or none would be any port.
func (c *config) checkEntrance() error {
	if path := strings.TrimPrefix(c.Listen, unixScheme); path != c.Listen {
		return c.checkSocket(path)
	}
	address := strings.TrimPrefix(c.Listen, tlsScheme)
	host, port, err := net.SplitHostPort(address)
	ip := net.ParseIP(host)
	if err == nil && ip != nil && address == c.Listen {
		return fmt.Errorf(`"listen" is %q: a port without TLS is not taken, since another program could listen there and grant everything: `+
			`write unix:/PATH, or %s%s with "tls"`, c.Listen, tlsScheme, c.Listen)
	}
	if number, wrong := strconv.ParseUint(port, 10, 16); err != nil || ip == nil || !ip.IsLoopback() || wrong != nil || number == 0 {
		return fmt.Errorf(`"listen" is %q, and must be unix:/PATH, tls:127.0.0.1:PORT or tls:[::1]:PORT`, c.Listen)
	}
	if c.TLS == nil || c.TLS.Certificate == "" || c.TLS.Key == "" {
		return errors.New(`"tls" is missing: {"certificate": FILE, "key": FILE} of the daemon, which the web server verifies`)
	}
	if c.SecretFile == "" {
		return errors.New("everyone on this machine may connect to a port: secret_file is missing")
	}
	return nil
}

// checkSocket returns an error if the path or the mode of the web server's Unix socket is wrong, if `tls` is set, which is for a port, or if
// checkMode does.
func (c *config) checkSocket(path string) error {
	mode, err := modeOf(c.SocketMode)
	if err != nil || !strings.HasPrefix(path, "/") || len(path) > mostSocketPath {
		return fmt.Errorf(`"listen" is %q with the mode %q, and must be unix:/PATH of at most %d octets with a mode such as 0660`, c.Listen, c.SocketMode, mostSocketPath)
	}
	if c.TLS != nil {
		return errors.New(`"tls" is for a port`)
	}
	return c.checkMode(mode)
}

// checkMode returns an error if a socket of this mode gives others than its owner and group any right and there is no secret. Who may write to a
// socket can connect to it.
func (c *config) checkMode(mode fs.FileMode) error {
	if mode&0o007 != 0 && c.SecretFile == "" {
		return fmt.Errorf(`the socket's mode is %04o, which gives others than its owner and group a right: write one such as 0660 ("socket_mode", `+
			`or SocketMode in its systemd unit), or set "secret_file"`, mode)
	}
	return nil
}

// modeOf reads the mode of a socket in octal digits, such as 0660. It fails if it is no such number, or has other rights than to read and to write.
func modeOf(text string) (fs.FileMode, error) {
	// (in base 8, and at most the 12 bits of a mode)
	mode, err := strconv.ParseUint(text, 8, 12)
	if err == nil && mode&^0o666 != 0 {
		err = fs.ErrInvalid
	}
	return fs.FileMode(mode), err
}

// listen takes the socket or the port from the service manager, if that has opened it, or opens it, and makes its queue long. With `tls` the listener
// speaks TLS. It fails as inheritedSocket, checkInherited, openEntrance and lengthenQueue do, and then leaves no listener open.
func (c *config) listen() (net.Listener, error) {
	listener, err := inheritedSocket()
	if err == nil && listener != nil {
		err = c.checkInherited(listener)
	} else if err == nil {
		listener, err = c.openEntrance()
	}
	if err == nil {
		err = lengthenQueue(listener)
	}
	if err != nil {
		return nil, closeAfter(listener, err)
	}
	if c.TLS == nil {
		return listener, nil
	}
	return c.TLS.wrap(listener), nil
}

// closeAfter closes a listener, if it is not nil, and returns `fault`, the error after which it is not needed.
func closeAfter(listener net.Listener, fault error) error {
	if listener != nil {
		listener.Close()
	}
	return fault
}

// openEntrance opens the socket or the port of the configuration, and gives a socket its group and its mode. It fails if the system refuses that, and as
// openSocket and setGroupAndMode do: then the socket is closed again.
func (c *config) openEntrance() (net.Listener, error) {
	if address := strings.TrimPrefix(c.Listen, tlsScheme); address != c.Listen {
		return net.Listen("tcp", address)
	}
	path := strings.TrimPrefix(c.Listen, unixScheme)
	listener, err := openSocket(path)
	if err != nil {
		return nil, err
	}
	if err := c.setGroupAndMode(path); err != nil {
		return nil, closeAfter(listener, err)
	}
	return listener, nil
}
