package main

// The connections of the web server. A connection is at a stage: fresh (no request has begun), busy (one is read or answered) or idle (between two).

import (
	"context"
	"errors"
	"fmt"
	"io"
	"net"
	"net/http"
	"os"
	"sync"
	"sync/atomic"
	"time"
)

// A connectionServer answers the requests of a web server, on each connection one after the other. It writes the decider's answers and nothing else. So
// it stands in for the server of net/http, which answers some requests by itself, such as `OPTIONS *` with 200.
type connectionServer struct {
	decider *decider
	// Has an element for each open connection, and room for as many as there may be.
	places chan struct{}
	// Closed when no further connection is accepted.
	isShut chan struct{}
	mutex  sync.Mutex
	// The open connections, and what each does. The mutex guards the map alone: a connectionState has a mutex of its own.
	open map[net.Conn]*connectionState
	// Whether the daemon ends. It is set before `end` gives the open connections their deadlines, so that each later setStage sets one too.
	isEnding atomic.Bool
	// Counts the open connections.
	connections sync.WaitGroup
	// Closed after isShut, when the last connection is closed.
	isEmpty chan struct{}
}

// A connectionState is what an open connection does, until when that may last, and whether endIdle or endLate gave the connection a deadline: from then on
// each change of the stage must set a new one.
type connectionState struct {
	connection  net.Conn
	mutex       sync.Mutex
	stage       stage
	until       time.Time
	hasDeadline bool
}

// A stage is what a connection does.
type stage int

const (
	// The connection is open, and no request has begun.
	isFresh stage = iota
	// A request is being read or answered.
	isBusy
	// A request was answered, and the next one has not begun.
	isIdle
)

// The most octets of a body that are read and dropped. A web server that asks sends no body.
const mostBody = 65_536

// How often, in the time that a request may take, the connections are looked through for those whose time is over. To set a deadline for each request
// would take a microsecond each.
const looksInTime = 20

// How long a connection may still begin a request when the daemon ends: one that had none yet, since it was opened for one, and one that is idle
// between two.
const (
	graceFresh = time.Second
	graceIdle  = 100 * time.Millisecond
)

var (
	errNoRequest = errors.New("this is no request that a web server sends")
	errSlow      = errors.New("the request did not end in time")
)

// newConnectionServer returns a server for the answers of a decider, with at most as many connections at once as its configuration allows.
func newConnectionServer(decider *decider) *connectionServer {
	places := make(chan struct{}, decider.config.Limits.Connections)
	return &connectionServer{decider: decider, places: places, isShut: make(chan struct{}), open: map[net.Conn]*connectionState{}, isEmpty: make(chan struct{})}
}

// serve accepts connections until the listener is closed, and answers the requests of each in a goroutine of its own. Where as many are open as may be,
// an idle one is closed for the next one, or the next one waits until any is closed.
func (s *connectionServer) serve(listener net.Listener) {
	defer close(s.isShut)
	go s.watch()
	for {
		connection, err := listener.Accept()
		if errors.Is(err, net.ErrClosed) {
			return
		}
		if err != nil {
			// (no file descriptor is free, or the client went away)
			time.Sleep(timeToRetry)
			continue
		}
		s.takePlace()
		go s.answerAll(s.add(connection))
	}
}

// takePlace puts an element into `places`, and waits for room there if need be. A web server keeps idle connections open for later requests, so takePlace
// closes one of those, and again each timeToRetry until there is room: the web server opens another one when it needs it.
func (s *connectionServer) takePlace() {
	for {
		select {
		case s.places <- struct{}{}:
			return
		default:
			s.closeIdle()
		}
		select {
		case s.places <- struct{}{}:
			return
		case <-time.After(timeToRetry):
		}
	}
}

// closeIdle ends one idle connection, if there is one.
func (s *connectionServer) closeIdle() {
	s.mutex.Lock()
	defer s.mutex.Unlock()
	for _, state := range s.open {
		if state.endIdle() {
			return
		}
	}
}

// endIdle ends a connection if it is idle, and says whether it was: its read fails by a deadline that is over. A request that is read at that moment is
// still answered.
func (c *connectionState) endIdle() bool {
	c.mutex.Lock()
	defer c.mutex.Unlock()
	if c.stage != isIdle {
		return false
	}
	c.hasDeadline = true
	// (this fails only if the connection is closed)
	_ = c.connection.SetReadDeadline(time.Now())
	return true
}

// add adds a connection, for which takePlace was called, to those that are open, and returns its new state.
func (s *connectionServer) add(connection net.Conn) *connectionState {
	state := &connectionState{connection: connection}
	s.mutex.Lock()
	defer s.mutex.Unlock()
	s.open[connection] = state
	s.connections.Add(1)
	return state
}

// remove closes a connection, and gives the place back that takePlace took.
func (s *connectionServer) remove(connection net.Conn) {
	connection.Close()
	s.mutex.Lock()
	defer s.mutex.Unlock()
	delete(s.open, connection)
	s.connections.Done()
	<-s.places
}

// setStage sets the stage of a connection, and until when that may last. If the connection has a deadline already, it gets a new one: it was to end, and a
// request came at that moment. While the daemon ends, each gets one. It fails if the deadline cannot be set, as when the connection is closed.
func (s *connectionServer) setStage(state *connectionState, stage stage) error {
	state.mutex.Lock()
	defer state.mutex.Unlock()
	state.stage, state.until = stage, time.Now().Add(s.patience(stage))
	if s.isEnding.Load() || state.hasDeadline {
		return state.connection.SetDeadline(state.until)
	}
	return nil
}

// patience returns how long a connection may stay in a stage. A request that has begun has the time of a request, and so has a new connection for its
// first one. An idle connection has timeIdle. While the daemon ends, the last two have graceFresh and graceIdle.
func (s *connectionServer) patience(stage stage) time.Duration {
	isEnding := s.isEnding.Load()
	switch {
	case isEnding && stage == isFresh:
		return graceFresh
	case isEnding && stage == isIdle:
		return graceIdle
	case stage == isIdle:
		return timeIdle
	}
	return s.decider.config.Limits.timeOfRequest()
}

// watch ends connections whose time is over, looksInTime times in the time of a request, until isEmpty is closed.
func (s *connectionServer) watch() {
	looks := time.NewTicker(s.decider.config.Limits.timeOfRequest() / looksInTime)
	defer looks.Stop()
	for {
		select {
		case now := <-looks.C:
			s.endLate(now)
		case <-s.isEmpty:
			return
		}
	}
}

// endLate ends each connection whose time is over.
func (s *connectionServer) endLate(now time.Time) {
	s.mutex.Lock()
	defer s.mutex.Unlock()
	for _, state := range s.open {
		state.endLate(now)
	}
}

// endLate ends a connection if its time is over: by a deadline that has passed, its reads and writes fail. Before the first setStage no time is set for it.
func (c *connectionState) endLate(now time.Time) {
	c.mutex.Lock()
	defer c.mutex.Unlock()
	if !c.until.IsZero() && now.After(c.until) {
		c.hasDeadline = true
		// (this fails only if the connection is closed)
		_ = c.connection.SetDeadline(now)
	}
}

// end waits until each request is answered that was sent on an accepted connection before the listener was closed, which the caller does first, and
// until all connections are closed. It fails if the context `limit` ends before that.
func (s *connectionServer) end(limit context.Context) error {
	s.isEnding.Store(true)
	s.mutex.Lock()
	for _, state := range s.open {
		s.endSoon(state)
	}
	s.mutex.Unlock()
	go func() {
		// (once isShut is closed, no connection is added any more)
		<-s.isShut
		s.connections.Wait()
		close(s.isEmpty)
	}()
	select {
	case <-s.isEmpty:
		return nil
	case <-limit.Done():
		return limit.Err()
	}
}

// endSoon gives a connection without a request under way a little time to begin one: graceFresh or graceIdle.
func (s *connectionServer) endSoon(state *connectionState) {
	state.mutex.Lock()
	defer state.mutex.Unlock()
	if state.stage != isBusy {
		// (this fails only if the connection is closed)
		_ = state.connection.SetDeadline(time.Now().Add(s.patience(state.stage)))
	}
}

// answerAll answers the requests of a connection one after the other, until the last one or until the connection's time is over, and closes it.
func (s *connectionServer) answerAll(state *connectionState) {
	connection := state.connection
	defer s.remove(connection)
	defer s.recoverPanic()
	limited := &io.LimitedReader{R: connection}
	reader := newRequestReader(limited)
	stage := isFresh
	for isOpen := true; isOpen; stage = isIdle {
		// (the most octets that are read for one request, so that none fills the memory: its line and a body may have as many again as its headers.
		// inquiryOf and inquiryOfPut refuse headers of over HeaderOctets)
		limited.N = int64(2 * s.decider.config.Limits.HeaderOctets)
		if s.setStage(state, stage) != nil {
			return
		}
		// (this waits for the first octet of a request)
		if _, err := reader.input.Peek(1); err != nil || s.setStage(state, isBusy) != nil {
			return
		}
		isOpen = s.answerOne(connection, reader)
	}
}

// recoverPanic is deferred by answerAll: it stops a panic, and logs it. Then the connection is closed without an answer.
func (s *connectionServer) recoverPanic() {
	if fault := recover(); fault != nil {
		s.decider.logFault(answerFailed, fmt.Errorf("panic: %v", fault))
	}
}

// answerOne reads and answers one request, and says whether another one may follow on the connection. A request whose headers do not end in time is
// logged as refused, and gets no answer. What is no request of HTTP/1, and a request whose headers end early, is answered by `refused`. The body of a
// PUT, by which a client leaves certificates, is read for the answer, and the rest of it dropped afterwards; any other body is dropped before the
// answer. No other one may follow a PUT, a request with a body, one of HTTP/1.0 or with `Connection: close`, what is no request, or an answer that
// could not be written, nor may one while the daemon ends.
func (s *connectionServer) answerOne(connection net.Conn, reader *requestReader) bool {
	request, err := reader.next()
	if err != nil && errors.Is(err, os.ErrDeadlineExceeded) {
		s.decider.logFault(answerRefused, errSlow)
		return false
	}
	isLast, decision := true, record{}
	if err != nil || request.ProtoMajor != 1 {
		decision = s.decider.logFault(answerRefused, errNoRequest)
	} else {
		isPut := s.decider.config.isPut(request)
		hasOtherBody := !isPut && dropBody(request)
		isLast = isPut || hasOtherBody || request.Close || !request.ProtoAtLeast(1, 1)
		decision = s.decider.answerTo(request)
		if isPut {
			dropRest(request)
		}
	}
	isLast = isLast || s.isEnding.Load()
	// (`rooms` has buffers that are used again)
	buffer := rooms.Get().(*[]byte)
	*buffer = decision.response(*buffer, time.Now(), isLast)
	_, err = connection.Write(*buffer)
	rooms.Put(buffer)
	return err == nil && !isLast
}

// dropBody drops the body of a request as dropRest does, and says whether it has one. Its caller reads no other request behind a body: so no part of
// what a web server takes for a body can be read as a request.
func dropBody(request *http.Request) (hasBody bool) {
	if request.ContentLength == 0 {
		return false
	}
	dropRest(request)
	return true
}

// dropRest reads and drops up to mostBody octets of what is unread of a body, unless the client waits to be asked for it (`Expect`). Where octets are
// left unread when the connection is closed, the system may report that to the web server before it has read the answer.
func dropRest(request *http.Request) {
	if request.Header.Get("Expect") == "" {
		// (what is longer, or ends early, is left)
		_, _ = io.CopyN(io.Discard, request.Body, mostBody)
	}
}
