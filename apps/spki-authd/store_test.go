package main

// Tests of a store: an access list whose entries are rows of a database, which a `table` in memory stands for here. The daemon polls the changes of
// the store, and keeps rows that it has read. A beat is a mark that the store gets each second: without one for ten seconds it is stale, and the
// answer is 503. Alice may read below /web/ by entry 7, and Bob below /web/docs/ by her certificate. 200 grants, 401 and 403 deny.

import (
	"encoding/hex"
	"errors"
	"fmt"
	"strings"
	"testing"
	"time"

	"conguraki/spki/guard"
)

// A table is a reader of a store without a database: it has the entries, and what a poll would return of their changes.
type table struct {
	// The entries, and the SHA-256 digests of their keys, by the numbers of the entries.
	texts      map[int]string
	keyDigests map[int]string
	// All changes, first that with the number 1, and what `allEnded` returns as ended, which no test sets: so it returns none.
	changes []change
	ended   []digest
	state   storeState
	// The error of each call, or nil.
	fault error
	// What happens after rows were read and before they are returned.
	meanwhile func()
	// How often `rows` or `chains` was called.
	reads int
	// The sequences by the digests of their keys, and what `keep` answers, or empty for `kept`.
	kept       map[digest][]keptChain
	keepAnswer answer
}

// A change has the digest of the key whose entry has changed, or, if `ended` is not nil, that of an ended certificate. `token` is the time of the
// change.
type change struct {
	keyDigest string
	ended     *digest
	token     int64
}

// put puts an entry with a number, for a key, into the table, or takes it out if `text` is empty. It notes the change, which the next poll returns.
func (t *table) put(number int, key, text string) {
	// (the second digest is that by SHA-256)
	keyDigest := string(digestsOf([]byte(key))[1])
	t.texts[number], t.keyDigests[number] = text, keyDigest
	if text == "" {
		delete(t.texts, number)
	}
	t.note(change{keyDigest: keyDigest})
}

// note adds a change with the next number, at a later time, the token.
func (t *table) note(next change) {
	t.state.changes++
	// (any later time)
	t.state.token += 7
	next.token = t.state.token
	t.changes = append(t.changes, next)
}

// rows returns the state, and the entries whose key has one of these digests, in the order of their numbers, which are below 100. Then it calls
// `meanwhile`, if that is set, and unsets it.
func (t *table) rows(digests [][]byte) (rows entryRows, err error) {
	t.reads++
	rows.storeState = t.state
	for number := 0; number < 100; number++ {
		for _, digest := range digests {
			if t.texts[number] != "" && t.keyDigests[number] == string(digest) && err == nil {
				err = rows.add(number, []byte(t.texts[number]))
			}
		}
	}
	if meanwhile := t.meanwhile; meanwhile != nil {
		t.meanwhile = nil
		meanwhile()
	}
	if t.fault != nil {
		err = t.fault
	}
	return rows, err
}

// changesSince returns the state, the changes after the one with a number, and the times of these and of that one, if there is such a change.
func (t *table) changesSince(number int64) (pollResult, error) {
	result := pollResult{storeState: t.state, times: map[int64]int64{}}
	if number > 0 && number <= t.state.changes {
		result.times[number] = t.changes[number-1].token
	}
	for place := number; place < t.state.changes; place++ {
		result.times[place+1] = t.changes[place].token
		if each := t.changes[place]; each.ended != nil {
			result.ended = append(result.ended, *each.ended)
		} else {
			result.changed = append(result.changed, []byte(each.keyDigest))
		}
	}
	return result, t.fault
}

// allEnded returns `ended`, in which those of `changes` are not, and the state.
func (t *table) allEnded() (pollResult, error) {
	return pollResult{storeState: t.state, ended: t.ended}, t.fault
}

// chains returns the sequences that are kept for the key with a digest, also those that have ended.
func (t *table) chains(key digest) ([]keptChain, error) {
	t.reads++
	return t.kept[key], t.fault
}

// keep keeps each sequence, as it is given, in `kept`, which must not be nil, whatever the limits are, unless the table has a fault. It returns keepAnswer, or `kept`
// if that is empty.
func (t *table) keep(key digest, chain keptChain, limits *chains) (answer, error) {
	if t.fault == nil {
		t.kept[key] = append(t.kept[key], chain)
	}
	if t.keepAnswer != "" {
		return t.keepAnswer, t.fault
	}
	return answerKept, t.fault
}

// renew does nothing: there are no connections.
func (t *table) renew() {}

// A storedSite is a site whose list is in a table. `time` is what the clock of its store says.
type storedSite struct {
	*site
	table *table
	store *store
	time  time.Time
}

// newStored returns a site whose list is in a table, in which Alice has entry 7. `fields` are more fields of its configuration, each after a
// comma.
func newStored(t testing.TB, fields ...string) *storedSite {
	t.Helper()
	here := &storedSite{site: newSite(t, strings.Join(fields, "")), table: &table{texts: map[int]string{}, keyDigests: map[int]string{}}, time: time.Now()}
	open := func(entries []byte) (*guard.Guard, error) {
		return guard.Open([]byte("(3:acl"+string(entries)+")"), guard.Strict, guard.Limits{})
	}
	// (no server is asked: `check` puts in the usual values)
	options := &storeSettings{Host: "/run", Database: "d", User: "u"}
	if err := options.check(); err != nil {
		t.Fatal(err)
	}
	var err error
	here.store, err = newStore(options, here.table, open, func() time.Time { return here.time })
	if err != nil {
		t.Fatal(err)
	}
	present := here.keeper.present.Load()
	here.keeper.present.Store(&access{lists: []*list{{scope: scope{Prefix: "/"}, store: here.store}}, ended: present.ended, digest: "store", read: present.read})
	here.table.put(7, here.alice.key, here.entryOf(here.alice))
	here.beat()
	return here
}

// entryOf returns an entry by which a person may read and give on everything below /web/.
func (s *storedSite) entryOf(who person) string {
	return "(5:entry" + who.key + propagates + "(3:tag" + prefixTag("read", "/web/") + "))"
}

// beat adds a beat to the table at the time of the store's clock, and has the store poll. The store keeps the error of the poll, so it is not returned.
func (s *storedSite) beat() {
	s.table.state.beat++
	s.table.state.beaten = s.time.UnixMicro()
	_ = s.store.pollOnce()
}

// expectAlice asks whether Alice may read /web/x, and reports an error, which begins with `name`, unless the status is the one that is wanted.
func (s *storedSite) expectAlice(t *testing.T, name string, wanted int) {
	t.Helper()
	if response := s.askAs(s.alice, "GET", "/web/x", ""); response.StatusCode != wanted {
		t.Errorf("%s: %d, and not %d: %s", name, response.StatusCode, wanted, s.lastLine(t).Reason)
	}
}

// TestStoreDecides asks by a list in a store. Rows that were read are kept, and not read again. The log has the number of an entry in the store, and
// that of the store's last change.
func TestStoreDecides(t *testing.T) {
	s := newStored(t)
	bobs, carols := s.sequencesShown()
	s.expectAlice(t, "Alice", 200)
	if line := s.lastLine(t); line.Entry != 7 || line.List != "change 1" {
		t.Errorf("entry %d of %q", line.Entry, line.List)
	}
	for name, row := range map[string]struct {
		who    person
		shown  string
		wanted int
	}{
		"Bob": {s.bob, bobs, 200}, "Carol": {s.carol, carols, 403}, "Mallory": {s.mallory, "", 401}, "Mallory with Bob's": {s.mallory, bobs, 403},
		"a value of another kind": {s.alice, noSequence, 400},
	} {
		if response := s.askAs(row.who, "GET", "/web/docs/b", row.shown); response.StatusCode != row.wanted {
			t.Errorf("%s: %d", name, response.StatusCode)
		}
	}
	reads := s.table.reads
	s.expectAlice(t, "Alice again", 200)
	if s.table.reads != reads {
		t.Error("rows that are kept are read again")
	}
}

// TestStoreChanges has entries added and removed, and a certificate end, while rows for Alice's key are kept: each change counts once it was polled.
func TestStoreChanges(t *testing.T) {
	s := newStored(t)
	bobs, _ := s.sequencesShown()
	if response := s.askAs(s.bob, "GET", "/web/docs/b", bobs); response.StatusCode != 200 {
		t.Errorf("Bob: %d", response.StatusCode)
	}
	s.table.put(9, s.alice.key, s.entryOf(s.alice))
	s.table.put(7, s.alice.key, "")
	s.beat()
	if s.expectAlice(t, "with the other entry", 200); s.lastLine(t).Entry != 9 {
		t.Errorf("entry %d", s.lastLine(t).Entry)
	}
	ends := *(*digest)(hexOf(t, digestOfText(s.toBob)))
	s.table.note(change{ended: &ends})
	s.beat()
	if response := s.askAs(s.bob, "GET", "/web/docs/b", bobs); response.StatusCode != 403 {
		t.Errorf("an ended certificate: %d", response.StatusCode)
	}
	s.table.put(9, s.alice.key, "")
	s.beat()
	s.expectAlice(t, "without entries", 401)
}

// TestStaleStore has the heartbeat stop, lag behind and be ahead, and the server fail. If the last beat is over ten seconds old, or over one second
// ahead, the answer is 503, also where entries are kept.
func TestStaleStore(t *testing.T) {
	s := newStored(t)
	s.expectAlice(t, "fresh", 200)
	s.time = s.time.Add(10*time.Second - time.Millisecond)
	s.expectAlice(t, "as old as may be", 200)
	s.time = s.time.Add(2 * time.Millisecond)
	_ = s.store.pollOnce()
	s.expectAlice(t, "a heartbeat that stopped", 503)
	s.beat()
	s.expectAlice(t, "a new beat", 200)
	s.table.fault = errors.New("the server is gone")
	s.time = s.time.Add(5 * time.Second)
	_ = s.store.pollOnce()
	s.expectAlice(t, "kept, without a server, for a while", 200)
	s.time = s.time.Add(6 * time.Second)
	s.expectAlice(t, "without a server", 503)
	s.table.fault = nil
	for lag, wanted := range map[time.Duration]int{11 * time.Second: 503, 9 * time.Second: 200, -500 * time.Millisecond: 200, -2 * time.Second: 503} {
		s.table.state.beat++
		s.table.state.beaten = s.time.Add(-lag).UnixMicro()
		_ = s.store.pollOnce()
		s.expectAlice(t, fmt.Sprintf("a lag of %v", lag), wanted)
	}
}

// TestStatusOfStore reads the status line of a store that was not read yet, and of one whose last beat is 1.5 seconds old. While a change waits, the
// status has that as an error.
func TestStatusOfStore(t *testing.T) {
	s := newStored(t)
	s.time = s.time.Add(1500 * time.Millisecond)
	unread, err := newStore(s.store.options, s.table, s.store.open, s.store.now)
	if err != nil {
		t.Fatal(err)
	}
	if line, err := unread.statusLine(); !strings.HasPrefix(line, "store: change 0, beat 0, not read yet, ended 0, ") || !errors.Is(err, errNever) {
		t.Errorf("%q %v", line, err)
	}
	if line, err := s.store.statusLine(); !strings.HasPrefix(line, "store: change 1, beat 1, 1.5 s old, ended 0, ") || err != nil {
		t.Errorf("%q %v", line, err)
	}
	s.table.state.waits, s.table.state.holder = 3, "process 9 of 'ann'"
	s.beat()
	if _, err := s.store.statusLine(); err == nil || !strings.Contains(err.Error(), "waited 3 s for process 9 of 'ann'") {
		t.Error(err)
	}
	s.table.state.waits = 0
	s.beat()
	if _, err := s.store.statusLine(); err != nil {
		t.Error(err)
	}
}

// TestListBesideStaleStore decides by a list in a file. Only the store knows which certificates have ended: while it is stale, a request that needs a
// certificate gets 503, and one that needs none is granted as before.
func TestListBesideStaleStore(t *testing.T) {
	s := newStored(t)
	present := s.keeper.present.Load()
	opened, err := s.store.open([]byte(s.entryOf(s.alice)))
	if err != nil {
		t.Fatal(err)
	}
	inFile := &list{scope: scope{Prefix: "/web/"}, guard: opened, digest: "file"}
	s.keeper.present.Store(&access{lists: []*list{inFile, present.lists[0]}, ended: present.ended, digest: "both", read: present.read})
	bobs, _ := s.sequencesShown()
	for _, stale := range []bool{false, true, false} {
		wanted := 200
		if stale {
			s.time = s.time.Add(time.Minute)
			wanted = 503
		} else {
			s.beat()
		}
		s.expectAlice(t, "Alice, without certificates", 200)
		if response := s.askAs(s.bob, "GET", "/web/docs/b", bobs); response.StatusCode != wanted {
			t.Errorf("Bob: %d, and not %d", response.StatusCode, wanted)
		}
	}
}

// TestStoreThatGoesBack reads rows of an older state than was polled, which fails; rows that a poll finds removed before they are kept, which are used once;
// and the rows of a server with another history, which replace those that are kept.
func TestStoreThatGoesBack(t *testing.T) {
	s := newStored(t)
	older := s.table.state
	s.table.put(8, s.mallory.key, s.entryOf(s.mallory))
	s.beat()
	polled := s.table.state
	s.table.state = older
	s.expectAlice(t, "rows of an older state", 503)
	s.table.state = polled
	// (the rows that are read have the entry, and before they are kept its removal is polled)
	s.table.meanwhile = func() { s.table.put(7, s.alice.key, ""); s.beat() }
	s.expectAlice(t, "rows of the moment before", 200)
	s.expectAlice(t, "rows after the removal", 401)
	// (a server that lost the third change, the removal, and then had another third one, at another time)
	s.table.changes, s.table.state.changes = s.table.changes[:2], 2
	s.table.put(7, s.alice.key, s.entryOf(s.alice))
	s.table.changes[2].token, s.table.state.token = 1000, 1000
	s.beat()
	s.expectAlice(t, "another history", 200)
}

// TestLostChange reads rows after a change that no poll has read yet: Mallory's entry is added. Then it polls a server of three kinds: one that has
// lost this change, one that has another change of this number, and one that has it. Only by the last one the entry still grants, and Alice's rows,
// which were read after the change too, are not read again.
func TestLostChange(t *testing.T) {
	for name, wanted := range map[string]int{"lost": 401, "another": 401, "there": 200} {
		s := newStored(t)
		polled := s.table.state
		s.table.put(8, s.mallory.key, s.entryOf(s.mallory))
		if status := s.statusFor(s.mallory, "/web/x", ""); status != 200 {
			t.Errorf("%s: %d before the poll", name, status)
		}
		s.expectAlice(t, name+", before the poll", 200)
		if wanted != 200 {
			delete(s.table.texts, 8)
			s.table.changes, s.table.state = s.table.changes[:polled.changes], polled
		}
		if name == "another" {
			// (at another time than the lost change)
			s.table.state.token++
			s.table.put(9, s.bob.key, s.entryOf(s.bob))
		}
		s.beat()
		if status := s.statusFor(s.mallory, "/web/x", ""); status != wanted {
			t.Errorf("%s: %d after the poll", name, status)
		}
		reads := s.table.reads
		if s.expectAlice(t, name+", after the poll", 200); (s.table.reads == reads) != (wanted == 200) {
			t.Errorf("%s: %d reads", name, s.table.reads-reads)
		}
	}
}

// newStoredWithChains returns a storedSite at which clients can leave certificates, which its table keeps.
func newStoredWithChains(t *testing.T) *storedSite {
	t.Helper()
	s := newStored(t, `, "chains": {"postgres": {"host": "/run", "database": "d", "user": "u"}}`+withSignatures)
	s.table.kept = map[digest][]keptChain{}
	// (this opens the site's chainKeeper)
	s.forgetChains()
	return s
}

// forgetChains has the site cache no sequences of its table any more, as after a start of the daemon.
func (s *storedSite) forgetChains() {
	s.chains = newStoredChains(s.config.Chains, s.table)
}

// expectKept has Bob ask without showing certificates, and reports an error, which begins with `name`, unless the status is the one that is wanted.
// `kept` is what the log must have: `used` if certificates that he has left grant the request, and otherwise an empty text.
func (s *storedSite) expectKept(t *testing.T, name string, wanted int, kept string) {
	t.Helper()
	if status := s.statusFor(s.bob, "/web/docs/b", ""); status != wanted || s.lastLine(t).Kept != kept {
		t.Errorf("%s: %d %+v", name, status, s.lastLine(t))
	}
}

// expectLeft has Bob leave his certificate, and reports an error, which begins with `name`, unless the answer is the one that is wanted.
func (s *storedSite) expectLeft(t *testing.T, name string, wanted answer) {
	t.Helper()
	bobs, _ := s.sequencesShown()
	if _, reply := s.leaveAs(t, s.bob, bobs); reply != wanted {
		t.Errorf("%s: %q", name, reply)
	}
}

// TestStoredChains leaves a certificate without an end in a store, where another daemon finds it for 90 days, the usual `days` of `chains`. What was
// just read is not read again.
func TestStoredChains(t *testing.T) {
	s := newStoredWithChains(t)
	s.expectKept(t, "nothing is kept", 401, "")
	s.expectLeft(t, "kept", answerKept)
	s.expectKept(t, "used", 200, "used")
	reads := s.table.reads
	s.expectKept(t, "used again", 200, "used")
	if s.table.reads != reads {
		t.Errorf("read %d times", s.table.reads-reads)
	}
	bobs, _ := s.sequencesShown()
	other, bobsKey := newStoredChains(s.config.Chains, s.table), hexDigest([]byte(s.bob.key))
	if chains, err := other.currentOf(bobsKey, s.now()); err != nil || len(chains) != 1 || chains[0].text != bobs {
		t.Errorf("%v %v", chains, err)
	}
	if chains, err := other.currentOf(bobsKey, s.now().AddDate(1, 0, 0)); err != nil || chains != nil {
		t.Errorf("a year later: %v %v", chains, err)
	}
}

// TestNamesInStore leaves certificates in a store: that by Alice, who has an entry in the list, is named, and that by Mallory is not. Where the entries
// cannot be read, the answer is `failed`, and so it is from a list in a store for a kept one.
func TestNamesInStore(t *testing.T) {
	s := newStoredWithChains(t)
	stranger, shown := s.strangersSequence(t)
	s.expectLeft(t, "by Alice", answerKept)
	if _, reply := s.leaveAs(t, stranger, shown); reply != answerKept {
		t.Error(reply)
	}
	for name, row := range map[string]struct {
		who    person
		wanted bool
	}{"by Alice": {s.bob, true}, "by Mallory": {stranger, false}} {
		if chains := s.table.kept[digestIn(hexDigest([]byte(row.who.key)))]; len(chains) != 1 || chains[0].isNamed != row.wanted {
			t.Errorf("%s: %v", name, chains)
		}
	}
	// (so that the entries for Mallory must be read)
	s.store.kept.clear()
	s.table.fault = errors.New("the server is gone")
	if _, err := s.isNamed(shown); err == nil {
		t.Error("it is known without the entries")
	}
	if _, reply := s.leaveAs(t, stranger, shown); reply != answerFailed {
		t.Error(reply)
	}
}

// TestStoredChainsThatAreNotRead has the store not answer: the answer to a request that may be granted by certificates in it is 503, and neither yes
// nor no, and that to certificates that are left is `failed`. They are answered by `failed` too where the store gives an answer that it should never give.
func TestStoredChainsThatAreNotRead(t *testing.T) {
	s := newStoredWithChains(t)
	s.expectLeft(t, "kept", answerKept)
	s.expectKept(t, "used", 200, "used")
	// (the sequence is cached, and the entries for Alice, who has issued the certificate, must be read. The second digest of a key is that by
	// SHA-256)
	s.store.kept.drop(digestsOf([]byte(s.alice.key))[1])
	s.table.fault = errors.New("the server is gone")
	s.expectKept(t, "without the entries for the issuer", 503, "")
	s.forgetChains()
	s.expectKept(t, "without the sequences", 503, "")
	s.expectLeft(t, "not kept", answerFailed)
	s.table.fault, s.table.keepAnswer, s.table.kept = nil, answerYes, map[digest][]keptChain{}
	s.expectLeft(t, "an answer that the store never gives", answerFailed)
}

// TestHostileRows reads rows that are not exactly one entry for Alice, beside a right one: they are skipped, and she is granted her request. The rows of a
// case are read in front of entry 20, and behind it is another one, with which some of them join.
func TestHostileRows(t *testing.T) {
	s := newStored(t)
	entry, other := s.entryOf(s.alice), s.entryOf(s.mallory)
	s.table.put(7, s.alice.key, "")
	s.table.put(20, s.alice.key, entry)
	half := len(entry) / 2
	useless := "(5:entry" + s.alice.key + "(3:tag1:x))"
	// (the beginning of an entry whose tag has entry 20 and the first octets of the last row as a string)
	swallows := fmt.Sprintf("(5:entry%s(3:tag%d:", s.alice.key, len(entry)+len("(5:entry"))
	hash := strings.Replace(entry, s.alice.key, s.mallory.hashOfKey(), 1)
	// (within `(3:acl` and `)` some would be two lists, and a list that begins with a version)
	for name, rows := range map[string][]string{
		"two entries": {entry + entry}, "no end": {entry[:len(entry)-1]}, "no entry": {"x"}, "an end too many": {entry + ")"}, "an end first": {")" + entry},
		"no tag": {"(5:entry" + s.alice.key + ")"}, "no subject": {"(5:entry(3:tag(1:*)))"}, "two lists": {entry + ")(3:acl" + entry},
		"a version": {"(7:version1:0)" + entry}, "a version alone": {"(7:version1:0)"}, "a space in front": {" " + entry}, "a space behind": {entry + " "},
		"advanced form": {"(entry " + s.alice.key + " (tag (*)))"}, "a space inside": {strings.Replace(entry, s.alice.key, " "+s.alice.key, 1)},
		"transport form": {sequence()}, "a comment of another list": {entry + "(7:comment1:x)"},
		"another's": {other}, "another's hash": {hash}, "another's name": {strings.Replace(entry, s.alice.key, "(4:name"+s.mallory.key+"1:x)", 1)},
		"too long": {strings.Repeat(entry, 10_000)}, "a tag that is too long": {"(5:entry" + s.alice.key + "(3:tag" + str(strings.Repeat("x", mostList)) + "))"},
		"two halves":                     {entry[:half], entry[half:]},
		"two of three":                   {entry + entry[:half], entry[half:]},
		"an entry that swallows another": {swallows}, "three rows that are three entries": {useless + useless + swallows},
	} {
		before := s.store.countsNow().skipped
		for place, text := range rows {
			s.table.put(8+place, s.alice.key, text)
		}
		s.table.put(21, s.alice.key, "(5:entry))")
		s.beat()
		s.expectAlice(t, name, 200)
		line, skipped := s.lastLine(t), s.store.countsNow().skipped-before
		if line.Entry != 20 || line.Skipped != len(rows)+1 || skipped != uint64(len(rows)+1) {
			t.Errorf("%s: entry %d, skipped %d, %d", name, line.Entry, line.Skipped, skipped)
		}
		for place := range rows {
			s.table.put(8+place, s.alice.key, "")
		}
	}
}

// TestEntriesOfOnePrincipal reads entries for Alice's key, its hashes, also with an address, and names: each is one of hers, and none
// is skipped.
func TestEntriesOfOnePrincipal(t *testing.T) {
	s := newStored(t)
	entry, number := s.entryOf(s.alice), 8
	hash := s.alice.hashOfKey()
	digests := digestsOf([]byte(s.alice.key))
	for _, principal := range []string{hash, "(4:hash6:sha512" + str(string(digests[2])) + ")", "(4:hash4:sha1" + str(string(digests[0])) + ")",
		strings.TrimSuffix(hash, ")") + "(3:uri1:x))", "(4:name" + s.alice.key + "1:x)",
		"(4:name" + hash + "1:x1:y)"} {
		s.table.put(number, s.alice.key, strings.Replace(entry, s.alice.key, principal, 1))
		number++
	}
	s.beat()
	s.expectAlice(t, "by all", 200)
	if skipped := s.store.countsNow().skipped; skipped != 0 || s.lastLine(t).Skipped != 0 {
		t.Errorf("%d are skipped: %+v", skipped, s.lastLine(t))
	}
}

// TestMostRows adds as many rows as one principal may have, and then as many octets. With one more of either it has too many. Entries together are too
// long from one octet over 1 MiB on, with what is around them, and what is skipped does not count.
func TestMostRows(t *testing.T) {
	for _, each := range []struct{ count, octets int }{{mostRows, 1}, {4, mostList}} {
		var rows entryRows
		for number := 0; number < each.count; number++ {
			if err := rows.add(number, make([]byte, each.octets)); err != nil {
				t.Fatal(number, err)
			}
		}
		if err := rows.add(each.count, []byte("x")); !errors.Is(err, errMany) || len(rows.texts) != each.count {
			t.Errorf("%d of %d octets: %v", each.count, each.octets, err)
		}
	}
	s := newStored(t)
	long := "(5:entry" + s.alice.key + "(3:tag" + str(strings.Repeat("x", 600_000)) + "))"
	rows := entryRows{numbers: []int{1, 2, 3}, texts: [][]byte{[]byte(long), []byte(long + "x"), {}}}
	opened, err := s.store.openRows(rows, digestsOf([]byte(s.alice.key)))
	if err != nil || len(opened.numbers) != 1 || opened.skipped != 2 {
		t.Errorf("%+v, %v", opened, err)
	}
	rows.texts[1] = rows.texts[0]
	if _, err := s.store.openRows(rows, digestsOf([]byte(s.alice.key))); !errors.Is(err, errMany) {
		t.Error(err)
	}
}

// A refusedMemory is an error as guard.Open returns it where an allocation fails.
type refusedMemory struct{}

// Error returns the text of guard.ErrMemory.
func (refusedMemory) Error() string { return guard.ErrMemory.Error() }

// Is says that the error is guard.ErrRefused and guard.ErrMemory.
func (refusedMemory) Is(target error) bool {
	return target == guard.ErrRefused || target == guard.ErrMemory
}

// TestStoreWithoutMemory has no memory for the list of right rows: the answer is `failed`, and the log names memory and no row. With memory Alice is
// granted her request again.
func TestStoreWithoutMemory(t *testing.T) {
	s := newStored(t)
	open := s.store.open
	s.store.open = func([]byte) (*guard.Guard, error) { return nil, refusedMemory{} }
	s.expectAlice(t, "without memory", 503)
	if line := s.lastLine(t); line.Answer != answerFailed || line.Reason != "store: refused Memory" || s.store.countsNow().failures != 1 {
		t.Errorf("%+v, %+v", line, s.store.countsNow())
	}
	s.store.open = open
	s.expectAlice(t, "with memory", 200)
}

// TestStoreConfigs reads configurations of stores: two right ones, of which some defaults and settings for the driver are compared, and wrong ones,
// each of which is refused.
func TestStoreConfigs(t *testing.T) {
	withStore := func(fields string) string {
		return strings.Replace(leastConfig, `"/acl"`, `{"postgres": {`+fields+`}}`, 1)
	}
	const needed = `"host": "/run/postgresql", "database": "acl", "user": "u"`
	config, err := parseConfig([]byte(withStore(needed)))
	if err != nil {
		t.Fatal(err)
	}
	settings := config.Source.store
	if words := settings.connectionString(); settings.Schema != "spki" || settings.mostAge() != 10*time.Second || !strings.Contains(words, "sslmode=disable ") ||
		!strings.Contains(words, " search_path=pg_catalog ") {
		t.Errorf("%+v %s", settings, words)
	}
	if config, err = parseConfig([]byte(withStore(`"host": "db", "root": "/a'b", "database": "d", "user": "u"`))); err != nil ||
		!strings.Contains(config.Source.store.connectionString(), `sslmode=verify-full sslrootcert='/a\'b'`) {
		t.Errorf("%v", err)
	}
	for _, text := range []string{
		withStore(""), withStore(needed + `, "schema": "a;b"`), withStore(needed + `, "stale_seconds": 2`), withStore(needed + `, "stale_seconds": -1`),
		withStore(needed + `, "more": 1`), withStore(`"host": "db", "database": "acl", "user": "u"`), withStore(needed + `, "port": 70000`),
		withStore(needed + `, "cache_mib": -1`),
		strings.Replace(leastConfig, `"/acl"`, `{}`, 1), strings.Replace(leastConfig, `"/acl"`, `{"postgres": null}`, 1), strings.Replace(leastConfig, `"/acl"`, `[]`, 1),
	} {
		if _, err := parseConfig([]byte(text)); err == nil {
			t.Errorf("accepted: %s", text)
		}
	}
}

// TestKeptLists adds five lists without entries where there is room for three, and asks for the first each time: it stays, and so do the last two.
// Then it removes one by its digest, and then all.
func TestKeptLists(t *testing.T) {
	s := newStored(t)
	lists := newKeptLists(3 * octetsOfList)
	names := make([]digest, 5)
	for number := range names {
		opened, err := s.store.open(nil)
		if err != nil {
			t.Fatal(err)
		}
		names[number][0] = byte(number)
		const octetsOfEntries = 0
		lists.add(names[number], [][]byte{{byte(number)}}, &list{guard: opened}, octetsOfEntries)
		lists.get(names[0])
	}
	for number, wanted := range []bool{true, false, false, true, true} {
		if (lists.get(names[number]) != nil) != wanted {
			t.Errorf("list %d", number)
		}
	}
	// (the only digest of the list with the number 3)
	lists.drop([]byte{3})
	if lists.get(names[3]) != nil || lists.count() != 2 || lists.size != 2*octetsOfList || len(lists.byDigest) != 2 {
		t.Errorf("%d lists of %d octets", lists.count(), lists.size)
	}
	lists.clear()
	if lists.count() != 0 || lists.size != 0 || len(lists.byDigest) != 0 {
		t.Errorf("%d lists of %d octets", lists.count(), lists.size)
	}
}

// hexOf returns the octets that hexadecimal digits stand for, and ends the test if they cannot be decoded.
func hexOf(t *testing.T, digits string) []byte {
	t.Helper()
	octets, err := hex.DecodeString(digits)
	if err != nil {
		t.Fatal(err)
	}
	return octets
}
