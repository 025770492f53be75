//go:build spki_postgres

package main

// A measurement of daemons that decide by a store in PostgreSQL and are asked over HTTP. bench/store.py starts them and this test, and reads its
// line. Of the people, hotPeople ask again and again, so that the daemons keep their rows, and coldPeople once at each daemon.

import (
	"bufio"
	"database/sql/driver"
	"fmt"
	"math/rand"
	"net"
	"os"
	"path/filepath"
	"sort"
	"strconv"
	"strings"
	"sync"
	"sync/atomic"
	"testing"
	"time"

	"github.com/lib/pq"
)

// bench/store.py sets these: the sockets of daemons, their processes, that of the server, the requests a second of each daemon or 0 for as many as it
// answers, and for how long.
const (
	envFronts  = "SPKI_STORE_SOCKETS"
	envDaemons = "SPKI_STORE_DAEMONS"
	envServer  = "SPKI_STORE_SERVER"
	envRate    = "SPKI_STORE_RATE"
	envSeconds = "SPKI_STORE_SECONDS"
)

// The people whose rows are kept, those who ask once, and the connections to each daemon.
const (
	hotPeople, coldPeople = 200, 20_000
	connectionsEach       = 16
)

// A load asks daemons over HTTP, nine of ten times for somebody whose rows they keep. Each connection begins a request every `every`, or at once if
// that is 0, for `seconds`. `requests` has the text of each person's request, and `times` what the answers took, by the connection.
type load struct {
	*testing.T
	requests []string
	sockets  []string
	every    time.Duration
	seconds  time.Duration
	times    [][]time.Duration
}

// TestStoreServed prints what decisions over HTTP take, with a TLS certificate of each client and its entry in the store: one line, which
// bench/store.py reads. It has the answers a second, the median and the 99th percentile of what they took, the processor time of the daemons, the
// server and the clients for each answer, the octets that the daemons moved for each, and how many processors were busy. Times are in microseconds.
func TestStoreServed(t *testing.T) {
	if os.Getenv(envFronts) == "" {
		t.Skip("bench/store.py names daemons")
	}
	l := &load{T: t, sockets: strings.Split(os.Getenv(envFronts), ",")}
	rate, _ := strconv.Atoi(os.Getenv(envRate))
	if rate > 0 {
		l.every = time.Second * connectionsEach / time.Duration(rate)
	}
	seconds, _ := strconv.Atoi(os.Getenv(envSeconds))
	l.seconds = time.Duration(seconds) * time.Second
	l.populate()
	l.warm()
	daemons := strings.Split(os.Getenv(envDaemons), ",")
	// (the processor time of the daemons, of the database's server, of this process, and of the whole machine)
	used := func() [4]time.Duration {
		return [...]time.Duration{processorTime(daemons), processorTime(processesOf(os.Getenv(envServer))), processorTime([]string{"self"}), busyTime()}
	}
	before, octets, begun := used(), transferredBy(daemons), time.Now()
	l.askUntilEnd()
	took, after, times := time.Since(begun), used(), []time.Duration{}
	octets = transferredBy(daemons) - octets
	for _, each := range l.times {
		times = append(times, each...)
	}
	const ofDaemons, ofServer, ofClients, ofMachine = 0, 1, 2, 3
	microsecondsEach := func(which int) float64 {
		return float64((after[which] - before[which]).Microseconds()) / float64(len(times))
	}
	sort.Slice(times, func(one, other int) bool { return times[one] < times[other] })
	fmt.Printf("figure served second %.0f p50 %d p99 %d daemon %.1f server %.1f clients %.1f octets %d busy %.2f\n", float64(len(times))/took.Seconds(),
		times[len(times)/2].Microseconds(), times[len(times)*99/100].Microseconds(), microsecondsEach(ofDaemons), microsecondsEach(ofServer), microsecondsEach(ofClients),
		octets/len(times), (after[ofMachine]-before[ofMachine]).Seconds()/took.Seconds())
}

// populate makes people, puts their entries into the store, and sets `requests`. Then it waits for the time of two polls of the daemons.
func (l *load) populate() {
	// (it opens the store: its number of keys is not used)
	f := newFigures(l.T, 1)
	writer, err := openReader(f.store.options, time.Minute)
	if err != nil {
		l.Fatal(err)
	}
	entries := pq.ByteaArray{}
	for number := 0; number < hotPeople+coldPeople; number++ {
		who := newPerson(l.T)
		entries = append(entries, []byte("(5:entry"+who.key+propagates+"(3:tag"+prefixTag("read", "/web/")+"))"))
		l.requests = append(l.requests, "GET /auth HTTP/1.1\r\nHost: d\r\nX-Original-Method: GET\r\nX-Original-URI: /web/x\r\nX-Client-Cert: "+who.escaped()+"\r\n\r\n")
	}
	added, err := entries.Value()
	if err == nil {
		err = runAt(writer.(*pool), "INSERT INTO "+f.store.options.Schema+".entries (text) SELECT * FROM unnest($1::bytea[])", added)
	}
	if err != nil {
		l.Fatal(err)
	}
	// (the daemons poll that before anything is measured)
	time.Sleep(2 * pollEvery)
}

// warm has each daemon read the rows of those who ask often.
func (l *load) warm() {
	for _, socket := range l.sockets {
		// (it draws no numbers, so any seed will do, and it notes no times)
		visitor := l.newVisitor(socket, 0, nil)
		for number := 0; number < hotPeople; number++ {
			visitor.askFor(number)
		}
		visitor.connection.Close()
	}
}

// askUntilEnd has each connection ask until the time is over, or until all who ask once have asked its daemon: their rows are kept from then on.
func (l *load) askUntilEnd() {
	var group sync.WaitGroup
	end, cold := time.Now().Add(l.seconds), make([]atomic.Int64, len(l.sockets))
	l.times = make([][]time.Duration, len(l.sockets)*connectionsEach)
	for place := range l.times {
		group.Add(1)
		at := place % len(l.sockets)
		go func(place int, visitor *visitor, cold *atomic.Int64) {
			defer group.Done()
			// (each begins at another moment and turn, so that the connections do not ask in step)
			next := time.Now().Add(time.Duration(visitor.random.Int63n(int64(l.every) + 1)))
			for turn := place; time.Now().Before(end) && cold.Load() < coldPeople; turn++ {
				time.Sleep(time.Until(next))
				next = next.Add(l.every)
				number := visitor.random.Intn(hotPeople)
				if turn%10 == 0 {
					number = hotPeople + int(cold.Add(1))%coldPeople
				}
				visitor.askFor(number)
			}
		}(place, l.newVisitor(l.sockets[at], int64(place), &l.times[place]), &cold[at])
	}
	group.Wait()
}

// A visitor asks over one connection, and notes what each answer took.
type visitor struct {
	*load
	connection net.Conn
	reader     *bufio.Reader
	random     *rand.Rand
	times      *[]time.Duration
}

// newVisitor returns a visitor that is connected to a daemon's socket. `seed` is that of its random numbers. What answers take is appended to `times`, if
// that is not nil.
func (l *load) newVisitor(socket string, seed int64, times *[]time.Duration) *visitor {
	connection, err := net.Dial("unix", socket)
	if err != nil {
		l.Fatal(err)
	}
	return &visitor{l, connection, bufio.NewReader(connection), rand.New(rand.NewSource(seed)), times}
}

// askFor asks for the person with a number, who must be granted the request, reads the answer up to its empty line, and notes the time.
func (a *visitor) askFor(number int) {
	begun := time.Now()
	if _, err := a.connection.Write([]byte(a.requests[number])); err != nil {
		a.Error(err)
	}
	for first := true; ; first = false {
		line, err := a.reader.ReadSlice('\n')
		if err != nil || first && !strings.HasPrefix(string(line), "HTTP/1.1 200 ") {
			a.Errorf("%d: %q %v", number, line, err)
			return
		}
		if len(line) == 2 {
			break
		}
	}
	if a.times != nil {
		*a.times = append(*a.times, time.Since(begun))
	}
}

// runAt runs a statement on a connection of a pool. It closes that, and gives no slot back: the pool has one less then. `values` are those of the
// statement's $1 and so on. It fails as pool.take and link.ask do.
func runAt(writer *pool, text string, values ...driver.Value) error {
	link, err := writer.take(writer.patience)
	if err != nil {
		return err
	}
	defer link.Close()
	// (the first of the statements that a connection has room for)
	return link.ask(0, text, func([]driver.Value) error { return nil }, values)
}

// processesOf returns the number of a process and those of the processes that it has started.
func processesOf(parent string) []string {
	processes := []string{parent}
	paths, _ := filepath.Glob("/proc/[0-9]*/stat")
	for _, path := range paths {
		// (behind the state is the number of the process that started this one)
		if fields := statOf(path); len(fields) > 1 && fields[1] == parent {
			processes = append(processes, filepath.Base(filepath.Dir(path)))
		}
	}
	return processes
}

// statOf returns the fields of a file such as /proc/1/stat from the state on, or none if it cannot be read.
func statOf(path string) []string {
	text, _ := os.ReadFile(path)
	_, rest, _ := strings.Cut(string(text), ") ")
	return strings.Fields(rest)
}

// processorTime returns the processor time of processes, and of those that they had started and that have ended. A process that is not there counts as 0.
func processorTime(processes []string) (sum time.Duration) {
	for _, each := range processes {
		// (by proc(5): utime, stime, cutime and cstime)
		if fields := statOf("/proc/" + each + "/stat"); len(fields) > 14 {
			sum += ticksIn(fields[11:15])
		}
	}
	return sum
}

// busyTime returns the time for which the processors of the machine were not idle: all of /proc/stat, but what it has for idle and for waiting. It is 0 if
// that cannot be read.
func busyTime() time.Duration {
	text, _ := os.ReadFile("/proc/stat")
	first, _, _ := strings.Cut(string(text), "\n")
	fields := strings.Fields(first)
	if len(fields) < 9 {
		return 0
	}
	// (by proc(5): user, nice and system, and irq, softirq and steal)
	return ticksIn(fields[1:4]) + ticksIn(fields[6:9])
}

// ticksIn returns the sum of the times in some fields, each a number of ticks of a hundredth of a second.
func ticksIn(fields []string) (sum time.Duration) {
	const tick = 10 * time.Millisecond
	for _, each := range fields {
		count, _ := strconv.Atoi(each)
		sum += time.Duration(count) * tick
	}
	return sum
}

// transferredBy returns how many octets processes have read and written together. A process that is not there, or of another user, counts as 0.
func transferredBy(processes []string) (sum int) {
	for _, each := range processes {
		text, _ := os.ReadFile("/proc/" + each + "/io")
		var read, wrote int
		_, _ = fmt.Sscanf(string(text), "rchar: %d\nwchar: %d", &read, &wrote)
		sum += read + wrote
	}
	return sum
}
