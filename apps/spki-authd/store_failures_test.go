//go:build spki_postgres

package main

// A test of a store in PostgreSQL while its servers, its network and its clock fail: tests/suite/test_store_failures.py has them fail, and ends the
// test. Another test, of transact, needs no store. A beat is a mark with the time that a store gets again and again, by which the daemon knows how
// old the store's state is.

import (
	"database/sql/driver"
	"encoding/hex"
	"errors"
	"io"
	"math/rand"
	"net"
	"os"
	"strconv"
	"strings"
	"sync"
	"sync/atomic"
	"testing"
	"time"

	"conguraki/spki/guard"
)

// tests/suite/test_store_failures.py sets these: the servers of which one can be written to, and the file whose coming ends the test.
const (
	envWriters = "SPKI_STORE_WRITERS"
	envEnd     = "SPKI_STORE_END"
)

// The seconds after which a store is stale in these tests, how long a server may take to answer, and the time between two changes.
const (
	failingStale    = 3
	failingPatience = 2 * time.Second
	betweenChanges  = 5 * time.Millisecond
)

// A version is the entries of a list by their numbers, and when they may have been in force: from the begin of the change that made it to the end of
// the next change that is certain. `until` is zero until that change has ended.
type version struct {
	entries     map[int]string
	from, until time.Time
}

// A timeline has the versions of a list whose server can fail. Until a change that failed is settled, two versions may be in force.
type timeline struct {
	*changingStore
	writers []*pool
	// The place of the writer that is asked, and the last number of an entry.
	writerAt, number int
	// How many changes failed, so that it was not certain whether they were done.
	uncertain int
	// Closed when the test ends.
	end chan struct{}
	// All versions, in the order in which they were noted. The mutex guards them.
	mutex sync.Mutex
	past  []*version
}

// newTimeline opens the store that the environment names, and the servers by which it is changed. If it names none, the test is skipped.
func newTimeline(t *testing.T) *timeline {
	t.Helper()
	if os.Getenv(envWriters) == "" {
		t.Skip("tests/suite/test_store_failures.py names servers")
	}
	line := &timeline{changingStore: newChangingStore(t, failingPatience), end: make(chan struct{}), past: []*version{{map[int]string{}, time.Now(), time.Time{}}}}
	line.store.options.StaleSeconds = failingStale
	for _, host := range strings.Split(os.Getenv(envWriters), ",") {
		// (each is asked at its Unix socket, by one connection)
		options := *line.store.options
		options.Host, options.Root, options.Connections = host, "", 1
		opened, err := openReader(&options, failingPatience)
		if err != nil {
			t.Fatal(err)
		}
		line.writers = append(line.writers, opened.(*pool))
	}
	return line
}

// transact runs statements, in which @ is the schema, in one transaction, and returns the rows of all. `values` are those of the last statement. After
// an error it is not known whether the transaction was committed. Its connection is closed then, and another server is asked the next time.
func (l *timeline) transact(texts []string, values ...driver.Value) (rows [][]driver.Value, err error) {
	writer := l.writers[l.writerAt]
	taken, err := writer.take(writer.patience)
	if err != nil {
		l.writerAt = (l.writerAt + 1) % len(l.writers)
		return nil, err
	}
	for place, text := range append(append([]string{"BEGIN READ WRITE"}, texts...), "COMMIT") {
		// (BEGIN is at the place 0, so the last of `texts` is at this one)
		var parameters []driver.Value
		if place == len(texts) {
			parameters = values
		}
		// (a link has room for a few statements, by their numbers: this uses only the first)
		if err = taken.forget(0); err == nil {
			use := func(row []driver.Value) error { rows = append(rows, copyOf(row)); return nil }
			err = taken.ask(0, strings.ReplaceAll(text, "@", l.store.options.Schema), use, parameters)
		}
		if err != nil {
			taken.Close()
			taken = nil
			l.writerAt = (l.writerAt + 1) % len(l.writers)
			break
		}
	}
	// (with nil, take opens another connection)
	writer.slots <- taken
	return rows, err
}

// copyOf returns a copy of a row, also of its octets, which are valid only until the next row.
func copyOf(row []driver.Value) []driver.Value {
	copied := append([]driver.Value(nil), row...)
	for place, value := range copied {
		if octets, isText := value.([]byte); isText {
			copied[place] = append([]byte(nil), octets...)
		}
	}
	return copied
}

// The statement that adds a beat, by the clock of a server. The table `error` says by how much that is wrong, as the test sets it.
const addBeat = "UPDATE @.heartbeat SET number = number + 1, moment = clock_timestamp() + (SELECT by FROM @.error)"

// change adds an entry or removes one, with a beat, and notes the version. Below 40 entries it adds one, so that questions find some, and otherwise it does
// either at random. If that fails, it is not certain whether it was done: then settle finds out.
func (l *timeline) change() {
	last := l.past[len(l.past)-1].entries
	next, begun := make(map[int]string, len(last)+1), time.Now()
	for number, text := range last {
		next[number] = text
	}
	var err error
	if len(next) < 40 || l.random.Intn(2) == 0 {
		l.number++
		next[l.number] = l.randomEntry()
		_, err = l.transact([]string{addBeat, "INSERT INTO @.entries (number, text) OVERRIDING SYSTEM VALUE VALUES ($1, $2)"}, int64(l.number), []byte(next[l.number]))
	} else {
		numbers := numbersOf(next)
		number := numbers[l.random.Intn(len(numbers))]
		delete(next, number)
		_, err = l.transact([]string{addBeat, "DELETE FROM @.entries WHERE number = $1"}, int64(number))
	}
	l.add(&version{next, begun, time.Time{}}, err == nil)
	if err != nil {
		l.uncertain++
		l.settle(begun)
	}
}

// settle waits until a server can be written to, and notes the version in force there, when no other transaction is under way. If the test ends before
// that, it notes none. `begun` is when the change was begun that is not certain.
func (l *timeline) settle(begun time.Time) {
	for {
		rows, err := l.transact([]string{"SELECT changes FROM @.state FOR UPDATE", addBeat, "SELECT number, text FROM @.entries"})
		if err == nil {
			entries := map[int]string{}
			// (the first row is that of the first statement, and the beat has none)
			for _, row := range rows[1:] {
				entries[int(row[0].(int64))] = string(row[1].([]byte))
			}
			const isCertain = true
			l.add(&version{entries, begun, time.Time{}}, isCertain)
			return
		}
		select {
		case <-l.end:
			return
		case <-time.After(50 * time.Millisecond):
		}
	}
}

// add adds a version. If it is certain, no version before it is in force any more.
func (l *timeline) add(next *version, isCertain bool) {
	l.mutex.Lock()
	defer l.mutex.Unlock()
	for place := len(l.past) - 1; isCertain && place >= 0 && l.past[place].until.IsZero(); place-- {
		l.past[place].until = time.Now()
	}
	l.past = append(l.past, next)
}

// listsWithin returns the entries of each version that may have been in force between two moments, the last one first.
func (l *timeline) listsWithin(from, until time.Time) (lists []map[int]string) {
	l.mutex.Lock()
	defer l.mutex.Unlock()
	for place := len(l.past) - 1; place >= 0; place-- {
		if version := l.past[place]; !version.from.After(until) && (version.until.IsZero() || !version.until.Before(from)) {
			lists = append(lists, version.entries)
		}
	}
	return lists
}

// isRight says whether an answer is that of a version that was in force at most `failingStale` seconds before its question was asked, or since.
func (l *timeline) isRight(asked time.Time, question guard.Question, answer string) bool {
	for _, entries := range l.listsWithin(asked.Add(-failingStale*time.Second), time.Now()) {
		if l.answerOfWholeList(entries, question) == answer {
			return true
		}
	}
	return false
}

// changeUntilEnd changes the list again and again until the test ends.
func (l *timeline) changeUntilEnd() {
	for {
		select {
		case <-l.end:
			return
		case <-time.After(betweenChanges):
			l.change()
		}
	}
}

// TestQuestionsUnderFailures asks a store while its entries change and tests/suite/test_store_failures.py has something fail. Each answer must be a
// failure, or that of the guard of the whole list as of a moment at most `failingStale` seconds before the question, or since. It ends when as many
// questions are answered as the environment says, and the file of envEnd is there. `counts` counts failures, and other answers by their first two
// letters: yes, no, refused. At least a twentieth of `wanted` must be yes, and as many no. At least one failure must come too. The test ends as
// failed if only failures come for five minutes.
func TestQuestionsUnderFailures(t *testing.T) {
	l := newTimeline(t)
	random := rand.New(rand.NewSource(l.random.Int63()))
	over := make(chan struct{})
	go l.store.poll()
	go func() { defer close(over); l.changeUntilEnd() }()
	wanted, _ := strconv.Atoi(os.Getenv(envQuestions))
	counts, last := map[string]int{}, time.Now()
	for count := 0; !t.Failed() && (count < wanted || !isThere(os.Getenv(envEnd))); {
		question, asked := l.randomQuestion(random), time.Now()
		answer := l.answerOfStore(question)
		if strings.HasPrefix(answer, failed) {
			counts[failed]++
			time.Sleep(time.Millisecond)
			if time.Since(last) > 5*time.Minute {
				t.Fatal("no answer for minutes: " + answer)
			}
			continue
		}
		count, last = count+1, time.Now()
		counts[answer[:2]]++
		if !l.isRight(asked, question, answer) {
			t.Errorf("seed %s, question %d: %s: %s", os.Getenv(envSeed), count, answer, hex.EncodeToString(question.Sequence))
		}
	}
	close(l.end)
	<-over
	if counts["ye"] < wanted/20 || counts["no"] < wanted/20 || counts[failed] == 0 {
		t.Errorf("%v", counts)
	}
	t.Logf("%v, %d versions, %d changes not certain, %d kept of %d", counts, len(l.past), l.uncertain, l.store.count.hits, l.store.count.hits+l.store.count.misses)
}

// isThere says whether there is a file at a path.
func isThere(path string) bool {
	_, err := os.Stat(path)
	return err == nil
}

// A fakeConn is a connection to no server: its statements do nothing. It counts those that are open.
type fakeConn struct {
	driver.Conn
	open int
	// The texts of the statements whose Query was called, in order, and the rows that each returns, or nil for none.
	ran  []string
	rows driver.Rows
	// Why it opens no statement, or nil, and whether it was closed.
	fault    error
	isClosed bool
}

// Prepare returns a statement, which counts as open, and c.fault.
func (c *fakeConn) Prepare(text string) (driver.Stmt, error) {
	c.open++
	return &fakeStatement{conn: c, text: text}, c.fault
}

// Close closes the connection.
func (c *fakeConn) Close() error { c.isClosed = true; return nil }

// A fakeStatement is a statement of a fakeConn.
type fakeStatement struct {
	driver.Stmt
	conn *fakeConn
	text string
}

// Close closes the statement.
func (s *fakeStatement) Close() error { s.conn.open--; return nil }

// Query notes the text of the statement, and returns the rows of the connection, or noRows if it has none.
func (s *fakeStatement) Query([]driver.Value) (driver.Rows, error) {
	s.conn.ran = append(s.conn.ran, s.text)
	if s.conn.rows != nil {
		return s.conn.rows, nil
	}
	return noRows{}, nil
}

// The noRows are the rows of a fakeConn whose `rows` are nil.
type noRows struct{}

// Columns returns the names of no columns.
func (noRows) Columns() []string { return nil }

// Close does nothing.
func (noRows) Close() error { return nil }

// Next says that there is no further row.
func (noRows) Next([]driver.Value) error { return io.EOF }

// TestTransactClosesStatements runs transactions on one connection. Each text is run, and at most the last statement stays open.
func TestTransactClosesStatements(t *testing.T) {
	conn := new(fakeConn)
	writer := &pool{patience: time.Second, slots: make(chan *link, 1), renewals: new(atomic.Int64)}
	writer.slots <- &link{Conn: conn}
	l := &timeline{changingStore: &changingStore{store: &store{options: &storeSettings{Schema: "s"}}}, writers: []*pool{writer}}
	for turn := 0; turn < 3; turn++ {
		if _, err := l.transact([]string{"SELECT 1 FROM @.entries", "SELECT 2"}); err != nil {
			t.Fatal(err)
		}
	}
	transaction := "BEGIN READ WRITE|SELECT 1 FROM s.entries|SELECT 2|COMMIT|"
	if ran := strings.Join(conn.ran, "|") + "|"; ran != strings.Repeat(transaction, 3) || conn.open > 1 {
		t.Errorf("%d open, %s", conn.open, ran)
	}
}

// newPoolOf returns a pool as openReader makes it, with these connections. No server is at its socket, in `folder`, so it can open no others.
func newPoolOf(t *testing.T, folder string, port int, connections ...*fakeConn) *pool {
	t.Helper()
	reader, err := openReader(&storeSettings{Host: folder, Port: port, Database: "d", User: "u", Connections: len(connections)}, time.Second)
	if err != nil {
		t.Fatal(err)
	}
	opened := reader.(*pool)
	for _, each := range connections {
		<-opened.slots
		opened.slots <- &link{Conn: each, renewals: opened.renewals.Load()}
	}
	return opened
}

// TestPoolRenews has a statement fail on one of the two connections of a pool, as after a failover. The other one is closed before it is
// used, and so is one of another pool for the same server. One to another server is used.
func TestPoolRenews(t *testing.T) {
	folder, gone, other, ofList, elsewhere := t.TempDir(), &fakeConn{fault: io.ErrUnexpectedEOF}, new(fakeConn), new(fakeConn), new(fakeConn)
	ofChains := newPoolOf(t, folder, 1, gone, other)
	for _, each := range []*pool{ofChains, ofChains, newPoolOf(t, folder, 1, ofList), newPoolOf(t, folder, 2, elsewhere)} {
		_, _ = each.chains(digest{})
	}
	if !gone.isClosed || !other.isClosed || other.ran != nil || !ofList.isClosed || ofList.ran != nil || elsewhere.isClosed || len(elsewhere.ran) != 1 {
		t.Errorf("%+v %+v %+v %+v", gone, other, ofList, elsewhere)
	}
}

// TestPoolInTime has two calls wait for the only connection of a pool, to a server that says something again and again, and never that it is ready.
// Both calls fail once the patience is over.
func TestPoolInTime(t *testing.T) {
	const patience, every = time.Second, 100 * time.Millisecond
	folder := t.TempDir()
	listener, err := net.Listen("unix", folder+"/.s.PGSQL.4")
	if err != nil {
		t.Fatal(err)
	}
	defer listener.Close()
	go func() {
		for {
			connection, err := listener.Accept()
			if err != nil {
				return
			}
			go func() {
				defer connection.Close()
				// (`S` is the status of a parameter: here of `a`, which is `b`. It ends at last, so that the test does)
				for begun := time.Now(); err == nil && time.Since(begun) < 5*patience; time.Sleep(every) {
					_, err = connection.Write([]byte("S\x00\x00\x00\x08a\x00b\x00"))
				}
			}()
		}
	}()
	reader, err := openReader(&storeSettings{Host: folder, Port: 4, Database: "d", User: "u", Connections: 1}, patience)
	if err != nil {
		t.Fatal(err)
	}
	begun, faults := time.Now(), make(chan error)
	for count := 0; count < 2; count++ {
		go func() {
			_, err := reader.rows(digestsOf(nil))
			faults <- err
		}()
	}
	first, second := <-faults, <-faults
	// (up to twice the patience, for a busy machine)
	if took := time.Since(begun); first == nil || second == nil || took > 2*patience {
		t.Errorf("%v, %v after %v", first, second, took)
	}
}

// endlessRows are rows of askRows, each with a text of half a MiB, and there is always one more. `count` is how many were read.
type endlessRows struct {
	noRows
	count int64
}

// Columns returns seven names, as many as a row of askRows has columns.
func (*endlessRows) Columns() []string { return make([]string, 7) }

// Next reads a row.
func (r *endlessRows) Next(row []driver.Value) error {
	r.count++
	copy(row, []driver.Value{int64(storeVersion), int64(1), int64(1), int64(1), int64(1), r.count, make([]byte, 1<<19)})
	return nil
}

// TestPoolOfManyRows reads rows without end. The ninth of half a MiB is one too many: the rows of a principal have at most 4 MiB. Then their connection
// is closed, and no other one.
func TestPoolOfManyRows(t *testing.T) {
	endless, many, other := new(endlessRows), new(fakeConn), new(fakeConn)
	many.rows = endless
	pool := newPoolOf(t, t.TempDir(), 3, many, other)
	if _, err := pool.rows(digestsOf(nil)); !errors.Is(err, errMany) || endless.count != 9 {
		t.Errorf("%v after %d rows", err, endless.count)
	}
	if _, err := pool.chains(digest{}); err != nil || !many.isClosed || other.isClosed {
		t.Errorf("%v %+v %+v", err, many, other)
	}
}

// TestSchemaIsQuoted opens a reader of a schema whose name is a reserved word of SQL. Each statement has it in quotes, wherever it has a schema.
func TestSchemaIsQuoted(t *testing.T) {
	reader, err := openReader(&storeSettings{Host: t.TempDir(), Database: "d", User: "u", Schema: "user"}, time.Second)
	if err != nil {
		t.Fatal(err)
	}
	for _, text := range reader.(*pool).texts {
		if quoted := strings.Count(text, `"user".`); quoted == 0 || strings.Count(text, "user") != quoted {
			t.Error(text)
		}
	}
}
