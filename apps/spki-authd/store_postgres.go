//go:build spki_postgres

package main

// The statements by which a store in PostgreSQL is read, and by which a sequence of certificates is kept in it. A row of askRows, askChangesSince and
// askAllEnded begins with the state of the store: its version, the number of its last change, and the number and the time of its last beat.

import (
	"context"
	"crypto/sha1"
	"crypto/sha256"
	"crypto/sha512"
	"database/sql/driver"
	"errors"
	"fmt"
	"io"
	"net"
	"strings"
	"sync"
	"sync/atomic"
	"time"

	"github.com/lib/pq"
)

// A pool is the reader of a store in PostgreSQL: it has connections to the server. A slot is an open connection, or nil for one that is not open.
type pool struct {
	connector *pq.Connector
	// How long a call may take. One of a poll may take longer: see ask.
	patience time.Duration
	slots    chan *link
	// The SQL of each statement, by its number: askRows to askKeep.
	texts [asks]string
	// How often renew was called, also by other pools for the same host and port, as those of a list and of `chains`: take closes a connection that
	// was opened before the last call, since it may lead to a server that another one has replaced.
	renewals *atomic.Int64
}

// renewalsAt has the `renewals` of all pools: an *atomic.Int64 by the host and the port.
var renewalsAt sync.Map

// A link is a connection, its prepared statements by their numbers, which are nil until they are used, and the pool's `renewals` when it was opened.
// What it is asked must be answered by `until`. While a poll uses it that is zero: then each read and each write has the pool's patience.
type link struct {
	driver.Conn
	statements [asks]driver.Stmt
	renewals   int64
	until      time.Time
}

// The numbers of the statements, each named by the method of reader that uses it, and how many there are.
const (
	askRows = iota
	askChangesSince
	askAllEnded
	askChains
	askKeep
	asks
)

// The version of the store's tables that this daemon reads, and the most changes that one poll reads.
const (
	storeVersion = 2
	mostChanges  = 10_000
)

var errVersion = errors.New("the store is of another version than this daemon reads")

// Parts of the statements: the columns of a state, the tables that have them, the time of a change in microseconds since 1970, and the join with the
// last change. `@` is the schema. Each of the two tables has one row, in which `one` is true.
const (
	stateColumns = "s.version, s.changes, b.number, (extract(epoch FROM b.moment) * 1000000)::bigint"
	stateTables  = "@.state s JOIN @.heartbeat b ON s.one AND b.one"
	microseconds = "(extract(epoch FROM c.moment) * 1000000)::bigint"
	// What a poll reads last in a row, and how many columns that are.
	holderColumns, countOfHolder = ", b.waits, b.holder, b.ended", 3
	lastChange                   = " LEFT JOIN @.changes c ON c.number = s.changes"
)

// openReader returns what reads a store. A call takes no longer than `patience`, and waits no longer than half of that for a free connection. A poll
// waits no longer than `patience` until it is connected, and for each read and each write. It connects when it is asked first. The error says that
// the settings are wrong.
func openReader(options *storeSettings, patience time.Duration) (reader, error) {
	connector, err := pq.NewConnector(options.connectionString())
	if err != nil {
		return nil, err
	}
	renewals, _ := renewalsAt.LoadOrStore(fmt.Sprintf("%s:%d", options.Host, options.Port), new(atomic.Int64))
	opened := &pool{connector: connector, patience: patience, slots: make(chan *link, options.Connections), renewals: renewals.(*atomic.Int64)}
	for count := 0; count < options.Connections; count++ {
		opened.slots <- nil
	}
	// (one row more than mostRows shows that there are too many. mostChanges+2 is for the change $1 itself, and for one more than a poll takes)
	for ask, text := range map[int]string{
		askRows: "SELECT " + stateColumns + ", " + microseconds + ", e.number, e.text FROM " + stateTables + lastChange + " LEFT JOIN LATERAL (" +
			rowsOf(sha1.Size, 1) + " UNION ALL " + rowsOf(sha256.Size, 2) + " UNION ALL " + rowsOf(sha512.Size, 3) +
			fmt.Sprintf(" LIMIT %d) e ON true ORDER BY e.number", mostRows+1),
		askChangesSince: "SELECT " + stateColumns + ", c.number, " + microseconds + ", c.what, c.digest" + holderColumns + " FROM " + stateTables +
			fmt.Sprintf(" LEFT JOIN LATERAL (SELECT * FROM (SELECT number, moment, what, digest FROM @.changes WHERE number >= $1 ORDER BY number LIMIT %d) l)"+
				" c ON true ORDER BY c.number", mostChanges+2),
		askAllEnded: "SELECT " + stateColumns + ", " + microseconds + ", e.certificate" + holderColumns + " FROM " + stateTables + lastChange +
			" LEFT JOIN @.ended e ON true",
		askChains: "SELECT text, (extract(epoch FROM until) * 1000000)::bigint FROM @.chains WHERE key = $1 ORDER BY until, digest",
		askKeep:   "SELECT @.keep($1, $2, $3, $4, $5, $6)",
	} {
		// (`@` is the schema, whose name was checked. It is in quotes, since it may be a reserved word of SQL such as user)
		opened.texts[ask] = strings.ReplaceAll(text, "@", pq.QuoteIdentifier(options.Schema))
	}
	return opened, nil
}

// rowsOf returns the part of askRows for the entries whose principal is a digest of so many octets. The table has an index for each length. `parameter` is
// the number of the digest among the statement's values, from 1.
func rowsOf(octets, parameter int) string {
	return fmt.Sprintf("SELECT number, text FROM @.entries WHERE octet_length(principal) = %d AND principal = $%d", octets, parameter)
}

// A dialer opens the patient connection of a link for the driver.
type dialer struct {
	patience time.Duration
	link     *link
}

// Dial connects, and fails if that takes longer than until d.link.until.
func (d dialer) Dial(network, address string) (net.Conn, error) {
	connection, err := (&net.Dialer{Deadline: d.link.until}).Dial(network, address)
	if err != nil {
		return nil, err
	}
	return &patient{connection, d.patience, d.link}, nil
}

// DialTimeout connects as Dial does, whatever time the driver gives.
func (d dialer) DialTimeout(network, address string, _ time.Duration) (net.Conn, error) {
	return d.Dial(network, address)
}

// renew has take close each connection to p's host and port that is open now, also one that works or is of another pool, and open a new one in its
// place. pollOnce calls it when a poll has failed, and ask when a statement has: after a failover another server may have the address. A connection
// to the old one would fail a request, or, where the old one still answers, read entries of another state than is polled.
func (p *pool) renew() {
	p.renewals.Add(1)
}

// take takes a connection from a slot, or opens a new one. The caller puts it into p.slots again, or nil after closing it. It fails if no slot is free
// within `wait`, or if it cannot connect within p.patience. Then the caller puts nothing back. What the connection is asked must be answered within
// p.patience too.
func (p *pool) take(wait time.Duration) (*link, error) {
	until, timer := time.Now().Add(p.patience), time.NewTimer(wait)
	defer timer.Stop()
	var taken *link
	select {
	case taken = <-p.slots:
	case <-timer.C:
		return nil, errors.New("no connection is free")
	}
	renewals := p.renewals.Load()
	if taken != nil {
		taken.until = until
		if taken.renewals == renewals {
			return taken, nil
		}
		taken.Close()
	}
	opened, connector := &link{renewals: renewals, until: until}, *p.connector
	connector.Dialer(dialer{p.patience, opened})
	var err error
	if opened.Conn, err = connector.Connect(context.Background()); err != nil {
		p.slots <- nil
		return nil, err
	}
	return opened, nil
}

// ask runs the statement with a number such as askRows and these values of its parameters, and calls a function with each of its rows. The row's values are
// valid during that call alone. It fails as take does. It also fails, closes the connection and renews the others, if the function fails, or if the
// server refuses the statement or does not answer within p.patience of the call (for a poll: of each read and write). After errMany it renews none.
func (p *pool) ask(number int, use func(row []driver.Value) error, values ...driver.Value) error {
	isPoll, wait := number == askChangesSince || number == askAllEnded, p.patience
	if !isPoll {
		// (so that time is left for the answer: a connection whose answer is late is closed, and opening it again makes other requests late)
		wait /= 2
	}
	link, err := p.take(wait)
	if err != nil {
		return err
	}
	if isPoll {
		// (no request waits for a poll, which may have millions of ended certificates to read)
		link.until = time.Time{}
	}
	if err = link.ask(number, p.texts[number], use, values); err != nil {
		link.Close()
		link = nil
		// (nothing polls the pool of `chains`, so without this each of its connections to a server that is gone would fail a request. A server that has
		// too many rows for a key is there)
		if !errors.Is(err, errMany) {
			p.renew()
		}
	}
	p.slots <- link
	return err
}

// ask is pool.ask on this connection, for the statement with a number, whose SQL is `text`: it is prepared the first time. After an error the caller closes
// the connection.
func (l *link) ask(number int, text string, use func(row []driver.Value) error, values []driver.Value) error {
	if l.statements[number] == nil {
		statement, err := l.Prepare(text)
		if err != nil {
			return err
		}
		l.statements[number] = statement
	}
	//lint:ignore SA1019 a call with a context has a goroutine each: the connection itself waits at most so long
	rows, err := l.statements[number].Query(values)
	if err != nil {
		return err
	}
	row := make([]driver.Value, len(rows.Columns()))
	for {
		if err = rows.Next(row); err != nil {
			break
		}
		if err = use(row); err != nil {
			break
		}
	}
	if errors.Is(err, io.EOF) {
		return rows.Close()
	}
	return err
}

// stateIn returns the state that a row begins with, in stateColumns. Its token, the time of the last change, is left empty: those who need it set it from
// another column. It fails with errVersion if the store has another version, or if one of these columns is no number.
func stateIn(row []driver.Value) (storeState, error) {
	var numbers [4]int64
	for place := range numbers {
		number, isNumber := row[place].(int64)
		if !isNumber {
			return storeState{}, errVersion
		}
		numbers[place] = number
	}
	if numbers[0] != storeVersion {
		return storeState{}, errVersion
	}
	return storeState{changes: numbers[1], beat: numbers[2], beaten: numbers[3]}, nil
}

// polledIn returns the state that a row of a poll begins with, and what holderColumns, its last ones, say. It fails as stateIn does.
func polledIn(row []driver.Value) (storeState, error) {
	state, err := stateIn(row)
	columns := row[len(row)-countOfHolder:]
	state.waits, _ = columns[0].(int64)
	state.holder, _ = columns[1].(string)
	state.holdersEnded, _ = columns[2].(int64)
	return state, err
}

// octetsIn returns a copy of the octets that a column has, since those are valid until the next row alone, or none for a column of another type.
func octetsIn(value driver.Value) []byte {
	octets, _ := value.([]byte)
	return append([]byte(nil), octets...)
}

// rows returns the entries for a key, by its digests by SHA-1, SHA-256 and SHA-512, in this order. Behind the state a row has the time of the last
// change, and the number and the text of an entry, or NULL for both if there is none. It fails as pool.ask or entryRows.add does, or with errVersion.
func (p *pool) rows(digests [][]byte) (rows entryRows, err error) {
	hasState := false
	err = p.ask(askRows, func(row []driver.Value) (err error) {
		rows.storeState, err = stateIn(row)
		hasState = true
		rows.token, _ = row[4].(int64)
		if number, isThere := row[5].(int64); isThere && err == nil {
			text, _ := row[6].([]byte)
			err = rows.add(int(number), text)
		}
		return err
	}, digests[0], digests[1], digests[2])
	return rows, requireState(hasState, err)
}

// requireState returns the error of a statement, or errVersion if it had no row, and so no state.
func requireState(hasState bool, err error) error {
	if err == nil && !hasState {
		return errVersion
	}
	return err
}

// changesSince returns the changes after the one with a number. `times` has the times of these and of that one, if it is not gone; the token of the
// state, which tells one history from another, is the time of the last change that is read; `isCut` says that there are over mostChanges. Behind the
// state a row has the number, the time, the kind and the digest of a change. The statement also reads the change with that number, and one more than
// a poll takes. It fails as pool.ask does, or with errVersion.
func (p *pool) changesSince(number int64) (result pollResult, err error) {
	hasState, count := false, 0
	result.times = map[int64]int64{}
	err = p.ask(askChangesSince, func(row []driver.Value) (err error) {
		result.storeState, err = polledIn(row)
		hasState = true
		changeNumber, isThere := row[4].(int64)
		if !isThere {
			return err
		}
		moment, _ := row[5].(int64)
		// (the rows come in the order of their numbers: the last one has the time of the last change, unless isCut, when pollOnce asks `allEnded`)
		result.token = moment
		result.times[changeNumber] = moment
		if changeNumber == number {
			return err
		}
		count++
		result.note(row[6], octetsIn(row[7]))
		return err
	}, number)
	result.isCut = count > mostChanges
	return result, requireState(hasState, err)
}

// note adds a change. If `kind` is `end` and there are 32 octets, they are the digest of an ended certificate. Otherwise they are the digest of a key
// whose entries have changed.
func (r *pollResult) note(kind driver.Value, octets []byte) {
	if text, isText := kind.(string); isText && text == "end" && len(octets) == len(digest{}) {
		r.ended = append(r.ended, *(*digest)(octets))
		return
	}
	r.changed = append(r.changed, octets)
}

// allEnded returns all ended certificates. Behind the state a row has the time of the last change and the digest of one certificate, or NULL if there
// is none. It fails as pool.ask does, or with errVersion.
func (p *pool) allEnded() (result pollResult, err error) {
	hasState := false
	err = p.ask(askAllEnded, func(row []driver.Value) (err error) {
		result.storeState, err = polledIn(row)
		hasState = true
		// (it is NULL, and read as 0, before the first change)
		result.token, _ = row[4].(int64)
		if octets := octetsIn(row[5]); len(octets) == len(digest{}) {
			result.ended = append(result.ended, *(*digest)(octets))
		}
		return err
	})
	return result, requireState(hasState, err)
}

// chains returns the sequences that are kept for the key with a digest, in the order of their ends. It fails as pool.ask does.
func (p *pool) chains(key digest) (chains []keptChain, err error) {
	err = p.ask(askChains, func(row []driver.Value) error {
		// (a value that is no number is read as 0, which is 1970: such a sequence has ended)
		until, _ := row[1].(int64)
		chains = append(chains, keptChain{text: string(octetsIn(row[0])), until: time.UnixMicro(until)})
		return nil
	}, key[:])
	return chains, err
}

// keep keeps a sequence for the key with a digest, if the limits let it, and returns the answer, which a function of the database gives: `kept`, `known` or
// `full` if the database is right. It fails as pool.ask does.
func (p *pool) keep(key digest, chain keptChain, limits *chains) (reply answer, err error) {
	err = p.ask(askKeep, func(row []driver.Value) error {
		reply = answer(fmt.Sprint(row[0]))
		return nil
	}, key[:], []byte(chain.text), chain.until, int64(limits.Each), int64(limits.Keys), chain.isNamed)
	return reply, err
}
