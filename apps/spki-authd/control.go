package main

// The control socket, at which the running daemon takes an operator's orders, such as `reload` or `health`.

import (
	"bufio"
	"errors"
	"fmt"
	"io"
	"net"
	"strings"
	"time"
)

// The control socket is for the operator alone: its mode is 0600. A client writes one line, an order, and reads the answer: orderDone in one line, or
// orderFailed with the reason, and a text behind that line. This is no HTTP, so that a web server that asks here by mistake reads no 200. mostOrder
// and mostText are the most octets of an order and of an answer. Each side ends the connection after timeForOrder.
const (
	controlSuffix = ".control"
	orderDone     = "done"
	orderFailed   = "failed: "
	mostOrder     = 64
	mostText      = 1 << 24
	timeForOrder  = time.Minute
)

// The orders: what the flags of the same names ask for.
const (
	orderReload      = "reload"
	orderReloadFewer = "reload fewer"
	orderReopen      = "reopen"
	orderHealth      = "health"
	orderMetrics     = "metrics"
	orderState       = "state"
)

// An order is a function that the daemon's main loop calls between two events, and the channel for its error. So reloads and reopenings, by orders or
// by signals, come one after the other.
type order struct {
	call   func(*daemon) error
	result chan error
}

var (
	errOrder    = errors.New("this is no order")
	errMainBusy = errors.New("the daemon is busy")
)

// checkControl returns an error unless `control` is unix:/PATH, with a path of at most mostSocketPath octets, and differs from `listen`.
func (c *config) checkControl() error {
	path := c.controlPath()
	if c.Control == c.Listen || !strings.HasPrefix(path, "/") || path == c.Control || len(path) > mostSocketPath {
		return fmt.Errorf(`"control" is %q, and must be unix:/PATH of at most %d octets, another one than "listen"`, c.Control, mostSocketPath)
	}
	return nil
}

// controlPath returns the path of the control socket.
func (c *config) controlPath() string {
	return strings.TrimPrefix(c.Control, unixScheme)
}

// serveControl answers the orders of all clients of the control socket, until its listener is closed.
func (d *daemon) serveControl(listener net.Listener) {
	for {
		connection, err := listener.Accept()
		if errors.Is(err, net.ErrClosed) {
			return
		}
		if err != nil {
			// (no file descriptor is free, or the client went away)
			time.Sleep(timeToRetry)
			continue
		}
		go d.answerOrder(connection, timeForOrder)
	}
}

// answerOrder reads an order from a connection, does it, writes the answer, and closes the connection. A line of over mostOrder octets, or one that
// does not end, gets no answer, and neither does an order that takes longer than `limit`.
func (d *daemon) answerOrder(connection net.Conn, limit time.Duration) {
	defer connection.Close()
	end := time.Now().Add(limit)
	if connection.SetDeadline(end) != nil {
		return
	}
	line, err := bufio.NewReader(io.LimitReader(connection, mostOrder)).ReadString('\n')
	if err != nil {
		return
	}
	// (half of the time that is left: an answer that says that the daemon is busy must still be written)
	text, err := d.doOrder(strings.TrimSuffix(line, "\n"), time.Until(end)/2)
	first := orderDone
	if err != nil {
		first = orderFailed + strings.ReplaceAll(err.Error(), "\n", ", ")
	}
	fmt.Fprintf(connection, "%s\n%s", first, text)
}

// doOrder does an order, and returns the text of its answer, for some orders also with an error. It fails with errOrder for a text that is no order,
// with errMainBusy if the main loop is busy for longer than `patience`, and as health, reload and reopen do.
func (d *daemon) doOrder(order string, patience time.Duration) (string, error) {
	switch order {
	case orderHealth:
		return d.health()
	case orderMetrics:
		return d.exposition(), nil
	case orderState:
		return d.state(), nil
	case orderReload, orderReloadFewer:
		err := d.inMain(func(d *daemon) error { return d.reload(order == orderReloadFewer) }, patience)
		return d.state(), err
	case orderReopen:
		return "", d.inMain((*daemon).reopen, patience)
	}
	return "", errOrder
}

// inMain has the main loop call a function, and returns the function's error. If the main loop is busy for longer than `patience`, it fails with
// errMainBusy, and the function is not called.
func (d *daemon) inMain(call func(*daemon) error, patience time.Duration) error {
	sent := order{call, make(chan error, 1)}
	select {
	case d.orders <- sent:
		return <-sent.result
	case <-time.After(patience):
		return errMainBusy
	}
}

// sendOrder sends an order to the daemon whose control socket has a path, and returns the text of the answer. The error is the reason behind
// orderFailed, with which the daemon may send a text too, or says why there is no whole answer.
func sendOrder(path, order string) (string, error) {
	connection, err := net.DialTimeout("unix", path, timeForOrder)
	if err != nil {
		return "", err
	}
	defer connection.Close()
	if err := connection.SetDeadline(time.Now().Add(timeForOrder)); err != nil {
		return "", err
	}
	if _, err := fmt.Fprintln(connection, order); err != nil {
		return "", err
	}
	octets, err := io.ReadAll(io.LimitReader(connection, mostText+1))
	if err == nil && len(octets) > mostText {
		err = fmt.Errorf("%s: the answer has %w: %d", path, errLong, mostText)
	}
	if err != nil {
		return "", err
	}
	answer, text, _ := strings.Cut(string(octets), "\n")
	if answer == orderDone {
		return text, nil
	}
	if reason := strings.TrimPrefix(answer, orderFailed); reason != answer {
		return text, errors.New(reason)
	}
	return "", fmt.Errorf("%s: no daemon answers there", path)
}
