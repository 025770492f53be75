package main

// A store: an access list in a database, with a row for each entry. The daemon reads the entries that a question needs, keeps them, and polls the
// changes. A beat is a mark with the time that the store gets each second. The state is stale if its last beat is too old, or too far ahead of the
// daemon's clock: then nothing is decided by it.

import (
	"bytes"
	"crypto/sha1"
	"crypto/sha256"
	"crypto/sha512"
	"errors"
	"fmt"
	"sync"
	"time"

	"conguraki/spki/guard"
)

// A store has the entries of an access list in a database. A decision needs only those whose principal is the key of the first issuer, or the client's key
// where no certificate is shown: docs/PROOFS.md, `decided_by_kept`. Entries that were read are kept until a poll reads that they have changed or cannot
// tell, or until cache_mib has no room for them.
type store struct {
	options *storeSettings
	reader  reader
	open    func(list []byte) (*guard.Guard, error)
	// A guard without entries. It lists the signatures of a question as the guard of any list does.
	empty *guard.Guard
	now   func() time.Time
	// The key that the first signature of a sequence is by, by the text of the sequence: empty if no signature is listed.
	firsts *recentMap[string, string]

	// Guards what follows.
	mutex  sync.RWMutex
	polled polledState
	// The error of the last poll, or nil. Before the first poll it is errNever.
	fault error
	// The lists of entries that were read, by key.
	kept *keptLists
	// The states of those that were read at a change after the last one that was polled, by the digest of the key. noteResult drops such a list if
	// the next poll does not read that change too.
	unpolled map[digest]storeState
	// The digests of the certificates that have ended early.
	ended map[digest]struct{}
	count storeCounts
}

// A reader asks the database. Each call but renew is one statement, and so reads one state. It fails if the database refuses it or does not answer in
// time, and the first three also if the store has another version.
type reader interface {
	// rows returns the entries for a key, and the state. `digests` are those that digestsOf returns for the key. It also fails as entryRows.add does.
	rows(digests [][]byte) (entryRows, error)
	// changesSince returns the changes after the one with this number, the time of that one, and the state.
	changesSince(number int64) (pollResult, error)
	// allEnded returns all ended certificates, and the state.
	allEnded() (pollResult, error)
	// chains returns the sequences that are kept for the key with this digest.
	chains(key digest) ([]keptChain, error)
	// keep keeps a sequence for the key with this digest, if the limits let it, and returns the answer to the client.
	keep(key digest, chain keptChain, limits *chains) (answer, error)
	// renew has each connection that is open now closed before its next use, and another one opened in its place, also those of other readers of the
	// same server. pollOnce calls it when a poll has failed: another server may have the address by then, as after a failover, and a connection that
	// still works may lead to the old one.
	renew()
}

// A storeState is a state of the store: the number of its last change, the time of that change, which tells one history from another, and the number
// and the time of the last beat, which `spki-store beat` writes each second. Times are in microseconds since 1970. Only a poll reads the last three,
// which that program also writes: how many seconds a change has waited for a holder, or 0, who that is, and how many of them were ended in all.
type storeState struct {
	changes, token, beat, beaten int64
	waits, holdersEnded          int64
	holder                       string
}

// entryRows are rows in the order of their numbers: the numbers, the texts, each that of one entry in canonical form if the database is right, and how
// many octets the texts have together. `skipped` counts the rows that are none, and are left out.
type entryRows struct {
	storeState
	numbers []int
	texts   [][]byte
	size    int
	skipped int
}

// A pollResult is what `changesSince` or `allEnded` returns. Of changes, `changed` has the digests of the keys whose entries have changed, and
// `ended` the certificates that have ended. isCut says that there were more changes than one poll reads.
type pollResult struct {
	storeState
	// The times of the changes that `changesSince` read, by their numbers: also of the change with the number that it was given, if there is one.
	times   map[int64]int64
	changed [][]byte
	ended   []digest
	isCut   bool
}

// A polledState is the state that was polled last. `history` counts the polls that did not follow the one before, as after a failover: in another
// history the same number can be another change.
type polledState struct {
	storeState
	history int
	// When a poll first read the present beat, and how old the beat was then by the time of day.
	at  time.Time
	lag time.Duration
}

// storeCounts count the questions whose entries were kept, those whose entries the database was asked for, and those of which noteRead has got an
// error. misses include failures. skipped counts rows that were read and left out, each time.
type storeCounts struct {
	hits, misses, failures, skipped uint64
}

// The time between two polls, and by how much the clock of the database's server may be ahead of the daemon's.
const (
	pollEvery = 250 * time.Millisecond
	mostAhead = time.Second
	// The most rows of one principal, and the most octets of them and of its entries: openRows gives those to `open`, which puts them into `(3:acl ..)`.
	mostRows   = 10_000
	mostRead   = 4 * mostList
	mostJoined = mostList - len("(3:acl)")
)

var (
	errStale   = errors.New("the store is stale")
	errNever   = errors.New("the store was not read yet")
	errOlder   = errors.New("the store answers with an older state than before")
	errMany    = fmt.Errorf("one principal has over %d rows, over 4 MiB of them or over 1 MiB of entries", mostRows)
	errHostile = errors.New("the entries of one principal are no list")
)

// newStore returns a store that was not polled yet. `open` opens a list of entries in canonical form, one behind the other. `now` is the clock. It fails
// as `open` does.
func newStore(options *storeSettings, reader reader, open func(list []byte) (*guard.Guard, error), now func() time.Time) (*store, error) {
	empty, err := open(nil)
	if err != nil {
		return nil, err
	}
	return &store{options: options, reader: reader, open: open, empty: empty, now: now, firsts: newRecentMap[string, string](mostShown),
		kept: newKeptLists(*options.CacheMiB << 20), unpolled: map[digest]storeState{}, ended: map[digest]struct{}{}, fault: errNever}, nil
}

// list returns a list of the entries that a question can need: that of listFor for its key. It fails as keyOf and listFor do.
func (s *store) list(question *guard.Question) (*list, error) {
	key, err := s.keyOf(question)
	if err != nil {
		return nil, err
	}
	return s.listFor(key)
}

// listFor returns a list of the entries for a key in canonical form: one that is kept, or a new one. The caller closes its guard if it isPassing. It
// fails as read does, and if the store is stale before the entries are read or afterwards.
func (s *store) listFor(key []byte) (*list, error) {
	if err := s.checkFresh(); err != nil {
		return nil, err
	}
	keyDigest := sha256.Sum256(key)
	if cached := s.keptOf(keyDigest); cached != nil {
		return cached, nil
	}
	opened, err := s.read(keyDigest, key)
	if err == nil {
		if err = s.checkFresh(); err != nil && opened.isPassing {
			opened.guard.Close()
		}
	}
	s.noteRead(err)
	if err != nil {
		return nil, fmt.Errorf("store: %w", err)
	}
	return opened, nil
}

// keyOf returns the key, in canonical form, whose entries a question needs: that of the first listed signature, or the client's key if no signature is
// listed. It fails with the library's refusal of the question, or with errBusy.
func (s *store) keyOf(question *guard.Question) ([]byte, error) {
	text := string(question.Sequence)
	first, isKnown := s.firsts.get(text)
	if !isKnown {
		var err error
		if first, err = s.firstKeyIn(question); err != nil {
			return nil, err
		}
		if len(text) <= mostShownOctets {
			s.firsts.add(text, first)
		}
	}
	if first == "" {
		// (no signature is listed)
		return []byte(question.Key.Text()), nil
	}
	return []byte(first), nil
}

// firstKeyIn is firstKeyIn by the guard without entries. It also fails with errBusy.
func (s *store) firstKeyIn(question *guard.Question) (string, error) {
	if err := library.enter(); err != nil {
		return "", err
	}
	defer library.leave()
	return firstKeyIn(s.empty, question)
}

// read reads the entries for a key from the database, and returns the list of them. `keyDigest` is the key's digest. The list is kept if it is not
// too large, and if no later state and no other history was polled meanwhile; otherwise it isPassing. If it is of a later state than was polled, the
// next poll says whether it stays. It fails with errOlder if the database's state is older than the last poll's, and as reader.rows and openRows do.
func (s *store) read(keyDigest digest, key []byte) (*list, error) {
	before := s.lastPolled()
	digests := digestsOf(key)
	rows, err := s.reader.rows(digests)
	if err != nil {
		return nil, err
	}
	if rows.changes < before.changes || rows.beat < before.beat {
		return nil, errOlder
	}
	opened, err := s.openRows(rows, digests)
	if err != nil {
		return nil, err
	}
	s.mutex.Lock()
	defer s.mutex.Unlock()
	s.count.skipped += uint64(opened.skipped)
	isLater := rows.changes > s.polled.changes
	isPresent := s.polled.history == before.history && (isLater || rows.changes == s.polled.changes && rows.token == s.polled.token)
	opened.isPassing = !isPresent || !s.kept.add(keyDigest, digests, opened, rows.size)
	if isLater && !opened.isPassing {
		s.unpolled[keyDigest] = rows.storeState
	}
	return opened, nil
}

// add adds a row, with a copy of its text. It fails with errMany if that makes too many rows, or too many octets. The reader then reads no further row:
// nobody can fill the memory by adding rows.
func (r *entryRows) add(number int, text []byte) error {
	r.size += len(text)
	if len(r.numbers) == mostRows || r.size > mostRead {
		return errMany
	}
	r.numbers, r.texts = append(r.numbers, number), append(r.texts, append([]byte(nil), text...))
	return nil
}

// openRows returns the list of the entries among rows that were read for a key, by the digests that digestsOf returns for it. Entries only grant, so it
// leaves out, and counts, each row that is not exactly one entry for this key: it could not only make the library refuse the list, but also join with
// other rows into an entry of another meaning. It fails with errMany if the entries are too long together, with errHostile if the library refuses them
// together, with guard.ErrMemory, and with errBusy if too many questions are decided at once.
func (s *store) openRows(rows entryRows, digests [][]byte) (*list, error) {
	if err := library.enter(); err != nil {
		return nil, err
	}
	defer library.leave()
	entries, err := s.entriesAmong(rows, digests)
	if err != nil {
		return nil, err
	}
	if entries.size > mostJoined {
		return nil, errMany
	}
	opened, err := s.open(bytes.Join(entries.texts, nil))
	if errors.Is(err, guard.ErrRefused) && !errors.Is(err, guard.ErrMemory) {
		// (each of them alone was read. It is no fault of the client's, whose request the other refusals are about)
		err = fmt.Errorf("%w: %v", errHostile, err)
	}
	if err != nil {
		return nil, err
	}
	return &list{guard: opened, numbers: entries.numbers, skipped: entries.skipped, digest: fmt.Sprintf("change %d", rows.changes)}, nil
}

// entriesAmong returns those of the rows that are exactly one entry each for the key with these digests, and how many others there are. It fails with
// guard.ErrMemory. The caller has entered the gate `library`.
func (s *store) entriesAmong(rows entryRows, digests [][]byte) (entries entryRows, err error) {
	for place, text := range rows.texts {
		isEntry, err := s.isEntry(text)
		if err != nil {
			return entries, err
		}
		if !isEntry || !isAmong(foundBy(text), digests) {
			entries.skipped++
			continue
		}
		entries.size += len(text)
		entries.numbers, entries.texts = append(entries.numbers, rows.numbers[place]), append(entries.texts, text)
	}
	return entries, nil
}

// isEntry says whether a text alone is exactly one entry in canonical form, as the library reads it. It fails with guard.ErrMemory.
func (s *store) isEntry(text []byte) (bool, error) {
	if !bytes.HasPrefix(text, []byte("(5:entry")) || len(text) > mostJoined {
		return false, nil
	}
	canonical, err := guard.Canonical(text)
	if err == nil && bytes.Equal(canonical, text) {
		var alone *guard.Guard
		if alone, err = s.open(text); err == nil {
			defer alone.Close()
			return alone.Entries() == 1, nil
		}
	}
	if err != nil && (errors.Is(err, guard.ErrMemory) || !errors.Is(err, guard.ErrRefused)) {
		return false, err
	}
	return false, nil
}

// isAmong says whether a digest is one of several.
func isAmong(digest []byte, digests [][]byte) bool {
	for _, each := range digests {
		if bytes.Equal(digest, each) {
			return true
		}
	}
	return false
}

// digestsOf returns three digests of a key, which is in canonical form: by SHA-1, SHA-256 and SHA-512, in this order. In the database the principal
// of an entry for this key is one of them.
func digestsOf(key []byte) [][]byte {
	first, second, third := sha1.Sum(key), sha256.Sum256(key), sha512.Sum512(key)
	return [][]byte{first[:], second[:], third[:]}
}

// keptOf returns the list that is kept for a key, by the digest of the key, and counts a hit. If none is kept, it returns nil.
func (s *store) keptOf(keyDigest digest) *list {
	s.mutex.Lock()
	defer s.mutex.Unlock()
	cached := s.kept.get(keyDigest)
	if cached != nil {
		s.count.hits++
	}
	return cached
}

// noteRead counts a question for which the database was asked. `err` is why the entries could not be read, or may not be used (checkFresh), or nil.
func (s *store) noteRead(err error) {
	s.mutex.Lock()
	defer s.mutex.Unlock()
	s.count.misses++
	if err != nil {
		s.count.failures++
	}
}

// lastPolled returns the state that was polled last.
func (s *store) lastPolled() polledState {
	s.mutex.RLock()
	defer s.mutex.RUnlock()
	return s.polled
}

// checkFresh returns an error if the state that was polled last is too old to decide by or too far in the future, or if none was polled yet.
func (s *store) checkFresh() error {
	s.mutex.RLock()
	defer s.mutex.RUnlock()
	if s.polled.at.IsZero() {
		return fmt.Errorf("store: %w", s.fault)
	}
	age, err := s.polled.age(s.now())
	if err == nil && age > s.options.mostAge() {
		err = fmt.Errorf("%w: its last beat is %v old", errStale, age.Round(time.Millisecond))
	}
	if err != nil && s.fault != nil {
		err = fmt.Errorf("%w; %v", err, s.fault)
	}
	return err
}

// age returns how old the state is at `now`: how old its beat was when a poll first read it, by the time of day (0 for one in the future), and the
// time since, by the monotonic clock. That clock stops while the machine sleeps, so the time of day counts if it says more. It fails if the beat was
// over mostAhead in the future when a poll first read it.
func (p *polledState) age(now time.Time) (time.Duration, error) {
	if p.lag < -mostAhead {
		return 0, fmt.Errorf("%w: its beat is %v ahead of the daemon's clock", errStale, -p.lag)
	}
	age := now.Sub(p.at)
	if p.lag > 0 {
		age += p.lag
	}
	// (Round(0) drops the monotonic clock)
	if byDay := now.Round(0).Sub(time.UnixMicro(p.beaten)); byDay > age {
		age = byDay
	}
	return age, nil
}

// hasEnded says whether the store had the digest of a certificate as ended early when it was polled last. Rows may be of a later state.
func (s *store) hasEnded(certificate digest) bool {
	s.mutex.RLock()
	defer s.mutex.RUnlock()
	_, hasEnded := s.ended[certificate]
	return hasEnded
}
