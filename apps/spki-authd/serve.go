package main

// The running daemon: its main loop, which does what signals and orders ask for, and its end.

import (
	"context"
	"fmt"
	"io"
	"net"
	"time"
)

// How long the daemon waits for open requests when it ends, how long it keeps an idle connection, which is longer than nginx does (60 s), and how long it
// waits before it accepts a connection again after an error.
const (
	timeToEnd   = 10 * time.Second
	timeIdle    = 75 * time.Second
	timeToRetry = 50 * time.Millisecond
)

// For how long an answer waits for its line in the log: a grant for the time of a request (`seconds`) divided by partOfGrant, and another answer for that
// time divided by partOfOther. A store is waited for as long as the line of a grant.
const (
	partOfGrant = 2
	partOfOther = 20
)

// A daemon is a decider with its logs, its signals and its control socket.
type daemon struct {
	*decider
	// The log of grants.
	ledger *ledger
	// What writes the lines of grants, of other answers, and of events.
	granted, other, messages *writer
	signals                  signals
	// What the main loop is to do for clients of the control socket.
	orders chan order
	// When the daemon was started.
	begun time.Time
	// How often the clock had gone back when that was reported last.
	backs int64
}

// startWriters starts the writers of grants, which the ledger gets, of other answers and of events. `out` gets other answers, and `messages` events.
func (d *daemon) startWriters(out, messages io.Writer) {
	patience := d.config.Limits.timeOfRequest()
	// (only the ledger has something to do each second)
	d.granted = newWriter(d.ledger, patience/partOfGrant, d.ledger.beat)
	d.other = newWriter(&stream{to: out}, patience/partOfOther, nil)
	d.messages = newWriter(&stream{to: messages}, patience/partOfOther, nil)
	d.logGrant, d.logOther = d.granted.write, d.other.offer
}

// listenAndServe opens the sockets, and answers until a signal ends the daemon. The error says why it could not begin, or what was not done at the
// end. In both cases the log of grants is closed, and the lines that wait are written.
func (d *daemon) listenAndServe() error {
	defer d.flush()
	listener, err := d.config.listen()
	if err != nil {
		// (nothing was granted, so no line can be lost)
		_ = d.closeLedger()
		return err
	}
	control, err := openSocket(d.config.controlPath())
	if err != nil {
		_ = d.closeLedger()
		return closeAfter(listener, err)
	}
	defer control.Close()
	go d.serveControl(control)
	return d.serve(listener)
}

// flush writes the waiting lines of events, and of answers other than grants: no grant is sent before its line is written. It waits for each of the
// two writers no longer than its patience.
func (d *daemon) flush() {
	d.other.flush()
	d.messages.flush()
}

// closeLedger closes the log of grants. It fails as ledger.close does, or with errHangs if that does not end in time.
func (d *daemon) closeLedger() error {
	return d.withLedger(d.ledger.close)
}

// withLedger has the writer of grants call a function between two writes, and returns its error. If that does not end in time, it fails with errHangs: then
// the function may still be running.
func (d *daemon) withLedger(call func() error) error {
	result := make(chan error, 1)
	if !d.granted.callBetweenWrites(func() { result <- call() }) {
		return errHangs
	}
	return <-result
}

// serve is the main loop. It tells the service manager that the daemon is ready. Other goroutines answer the requests of a listener, while it does
// what orders and signals ask for, and watches the clock each second, until a signal ends the daemon. Its error is that of end.
func (d *daemon) serve(listener net.Listener) error {
	connections := newConnectionServer(d.decider)
	go connections.serve(listener)
	d.logEvent("started", nil)
	// (a daemon whose service manager is gone answers all the same)
	if err := notify(d.statusLine() + "\nREADY=1"); err != nil {
		d.logEvent("announced", err)
	}
	seconds := time.NewTicker(time.Second)
	defer seconds.Stop()
	for {
		select {
		case <-seconds.C:
			d.watchClock()
		case <-d.signals.reload:
			// (as -reload without -fewer. An event has the error)
			_ = d.reload(false)
		case <-d.signals.reopen:
			// (an event has the error)
			_ = d.reopen()
		case order := <-d.orders:
			order.result <- order.call(d)
		case <-d.signals.end:
			return d.end(listener, connections)
		}
	}
}

// watchClock writes an event if the time of day went back since the last call.
func (d *daemon) watchClock() {
	d.clock.note(d.now())
	if backs := d.clock.timesBack.Load(); backs > d.backs {
		d.backs = backs
		d.logEvent("the clock went back", nil)
	}
}

// end closes the listener, waits up to timeToEnd until the open requests are answered, and closes the log of grants. An event says how that went. The
// error says that requests were still open, or that the last grants may not be on the disk.
func (d *daemon) end(listener net.Listener, connections *connectionServer) error {
	// (without its service manager the daemon ends all the same)
	_ = notify("STOPPING=1")
	limit, cancel := context.WithTimeout(context.Background(), timeToEnd)
	defer cancel()
	listener.Close()
	err := connections.end(limit)
	if fault := d.closeLedger(); err == nil {
		err = fault
	} else if fault != nil {
		err = fmt.Errorf("%w; %v", err, fault)
	}
	d.logEvent("ended", err)
	return err
}

// reload reads the access lists, the ended certificates and the certificate for TLS again: accessKeeper.replace says when it fails. An event and a
// message to the service manager say how it went.
func (d *daemon) reload(allowFewerEnded bool) error {
	// (without its service manager the daemon reloads all the same)
	_ = notify("RELOADING=1")
	err := d.keeper.reload(d.config, allowFewerEnded, d.now())
	d.logEvent("reloaded", err)
	_ = notify(d.statusLine() + "\nREADY=1")
	return err
}

// reopen opens the log of grants again, as after it was renamed, and says how that went by an event. It fails as ledger.reopen does, or with errHangs.
func (d *daemon) reopen() error {
	err := d.withLedger(d.ledger.reopen)
	d.logEvent("reopened", err)
	return err
}

// statusLine returns the line for the service manager by which `systemctl status` shows the state of the daemon.
func (d *daemon) statusLine() string {
	present := d.keeper.present.Load()
	line := fmt.Sprintf("STATUS=%d entries, %d ended certificates", present.entries(), present.ended.count)
	if d.keeper.last.Load().fault != nil {
		line += "; the last reload was refused"
	}
	return line
}

// logEvent writes an event: what the daemon did, such as `reloaded`, or, if `fault` is not nil, what it did not do because of that. The event has the
// digests of the lists and of the ended certificates that are in force. That of a list in a store is as of the last reload.
func (d *daemon) logEvent(action string, fault error) {
	present := d.keeper.present.Load()
	message := event{
		Time: stamp(d.now()), Event: action, Entries: present.entries(), List: present.digest, Ended: present.ended.count, EndedDigest: present.ended.digest,
	}
	if fault != nil {
		message.Event, message.Detail = action+" not", fault.Error()
	}
	d.messages.offerEvent(message)
}
