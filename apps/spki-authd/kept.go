package main

// Chains: sequences of certificates that clients have left with the daemon, for their later requests. A folder has one file for each (folderChains),
// or a store in PostgreSQL has them (storedChains). judgeAll decides a request by them.

import (
	"encoding/base64"
	"errors"
	"fmt"
	"os"
	"path/filepath"
	"regexp"
	"sort"
	"strings"
	"sync"
	"time"

	"conguraki/spki/guard"
)

// chains are the settings of the configuration by which clients may leave their certificates with the daemon. A chain here is a sequence of certificates
// that a client has left.
type chains struct {
	// The folder that has them: a folder for each key, and in it a file for each sequence. Or the store, at the server that is written to.
	Folder   string         `json:"folder"`
	Postgres *storeSettings `json:"postgres"`
	// For how many days each is kept at most, how many a key may have, and how many keys may have some.
	Days int `json:"days"`
	Each int `json:"each"`
	Keys int `json:"keys"`
	// The path to which they are put.
	Path string `json:"path"`
}

// The usual limits of kept sequences, and where they are put.
const (
	usualDays, usualEach, usualKeys = 90, 4, 10_000
	usualPath                       = "/.well-known/spki-chain"
)

// A chainKeeper has the sequences of certificates that clients have left, in a folder or in a store. They give nothing by themselves: a request is decided
// by them as if it showed them.
type chainKeeper interface {
	// currentOf returns the sequences of a key that have not ended, in the order of their ends. Here and below, `key` is the SHA-256 digest of a key in
	// hexadecimal digits.
	currentOf(key string, now time.Time) ([]keptChain, error)
	// whyNotAdded returns the answer to a sequence that add would not keep, or an empty one if add may keep it. It is asked before a signature is verified.
	whyNotAdded(key string, chain keptChain, now time.Time) (answer, error)
	// add keeps a sequence for a key, if there is room, and returns the answer to the client: `kept`, `known` or `full`, or `failed` with an error. It
	// may remove sequences that have ended and, to make room for one that isNamed, those that are not. No other one is removed.
	add(key string, chain keptChain, now time.Time) (answer, error)
}

// folderChains is the chainKeeper of a folder. It has all sequences of the folder in memory too. storedChains is that of a store.
type folderChains struct {
	// The configuration, with the folder and the limits.
	chains
	// What says whether a list names the first issuer of a kept sequence: decider.isNamed.
	isNamed func(sequence string) (bool, error)
	// Held while files are written or removed, and while what follows is changed, so that one goroutine at a time does that. currentOf waits for no disk.
	writing sync.Mutex
	// Guards what follows.
	mutex sync.Mutex
	// The sequences by the digest of their key, in the order of their ends, and how many octets all of them have. One that has ended stays, and is
	// not used, until another one needs its room, or until a start over Days days later: so a clock that is ahead by less loses none.
	byKey  map[string][]keptChain
	octets int
}

// A keptFile is the file of a sequence: the key whose folder it is in, and its name there.
type keptFile struct {
	key, name string
}

// The most octets of all sequences in a folder.
const mostLeft = 32 << 20

// What the name of a sequence's file ends with until the file is whole, and the age from which such a file is removed. A younger one may be that of
// another daemon, if two are started by mistake.
const (
	partSuffix = ".new"
	mostPart   = time.Minute
)

// partName matches the name of a file that is not whole.
var partName = regexp.MustCompile(`^[0-9a-f]{64}\.new$`)

// A keptChain is a sequence in transport form, the name of its file, which is the SHA-256 digest of the text in hexadecimal digits, and the moment from
// which on it does not count. One that was read from a store has no name. isNamed says that a list named its first issuer when that was asked: of one
// that was read from a file that was not asked yet.
type keptChain struct {
	text, name string
	until      time.Time
	isNamed    bool
}

// hasEnded says whether the sequence does not count any more at `now`.
func (k keptChain) hasEnded(now time.Time) bool {
	return !now.Before(k.until)
}

// notEnded returns those of the sequences in `all` that have not ended at `now`, in their order.
func notEnded(all []keptChain, now time.Time) (current []keptChain) {
	for _, chain := range all {
		if !chain.hasEnded(now) {
			current = append(current, chain)
		}
	}
	return current
}

// check sets the settings that were left out, and returns an error if one is wrong. isSigned says whether requests can be signed, without which
// nothing can be left. The path has at most mostTarget octets, as many as the log has of it. `c` is nil for a configuration without `chains`: then
// nothing is wrong.
func (c *chains) check(isSigned bool) error {
	if c == nil {
		return nil
	}
	if !isSigned {
		return errors.New(`"chains" needs "signatures": who leaves certificates signs the request`)
	}
	setText(&c.Path, usualPath)
	if path, err := pathOf(c.Path, mostTarget); err != nil || path != c.Path {
		return fmt.Errorf(`"chains" has the path %q, which has several forms`, c.Path)
	}
	isInFolder := c.Postgres == nil && strings.HasPrefix(c.Folder, "/")
	isInStore := c.Postgres != nil && c.Folder == ""
	if !isInFolder && !isInStore || c.Days < 0 || c.Each < 0 || c.Keys < 0 {
		return errors.New(`"chains" needs "folder", which is /PATH, or "postgres", and no limit may be negative`)
	}
	for limit, usual := range map[*int]int{&c.Days: usualDays, &c.Each: usualEach, &c.Keys: usualKeys} {
		if *limit == 0 {
			*limit = usual
		}
	}
	if c.Postgres != nil {
		return c.Postgres.check()
	}
	return nil
}

// openChains opens the folder or the store of the sequences that clients have left, or returns nil if the configuration has none. isNamed is
// decider.isNamed. mayRemove says whether files of sequences that are not needed at `now` may be removed. It fails as openFolderChains or openReader does.
func openChains(c *config, isNamed func(string) (bool, error), now time.Time, mayRemove bool) (chainKeeper, error) {
	switch {
	case c.Chains == nil:
		return nil, nil
	case c.Chains.Postgres == nil:
		return openFolderChains(c.Chains, isNamed, now, mayRemove)
	}
	// (a store is waited for as long as the line of a grant)
	reader, err := openReader(c.Chains.Postgres, c.Limits.timeOfRequest()/partOfGrant)
	if err != nil {
		return nil, err
	}
	return newStoredChains(c.Chains, reader), nil
}

// openFolderChains reads the sequences of a folder into memory. If mayRemove, it removes the files that are not needed, which `read` returns: of sequences
// that ended over c.Days days ago, or that have ended and whose room is needed, and older files that were not written whole. mayRemove is false for -test,
// which changes no file. A file that the daemon has not written is left out. It fails if the path is no folder, if the folder cannot be read, or if others
// than its owner may write it. isNamed is decider.isNamed, and is not called before a sequence is added.
func openFolderChains(c *chains, isNamed func(string) (bool, error), now time.Time, mayRemove bool) (*folderChains, error) {
	opened := &folderChains{chains: *c, isNamed: isNamed, byKey: map[string][]keptChain{}}
	about, err := os.Stat(c.Folder)
	if err != nil {
		return nil, err
	}
	if !about.IsDir() || about.Mode().Perm()&0o022 != 0 {
		return nil, fmt.Errorf("%s: this is no folder that only the daemon may write", c.Folder)
	}
	folders, err := os.ReadDir(c.Folder)
	if err != nil {
		return nil, err
	}
	for _, folder := range folders {
		// (what is no folder, or cannot be read, is not the daemon's)
		files, _ := os.ReadDir(filepath.Join(c.Folder, folder.Name()))
		for _, file := range files {
			removable := opened.read(folder.Name(), file.Name(), now)
			if mayRemove {
				opened.remove(removable...)
			}
		}
	}
	return opened, nil
}

// read reads the file of a sequence into memory, and returns the files that can be removed. That is this file, if it was not written whole and is
// older than mostPart, or if its sequence has ended and has no room, or ended over f.Days days ago: a clock that is ahead by less loses none. Or it
// is the files of ended sequences whose room this one takes. `key` is the name of the file's folder. Without room for a sequence that has not ended,
// or if the file cannot be read or its name is not the digest of its octets, the file is left out and stays. The time of the file is when the
// sequence was left.
func (f *folderChains) read(key, name string, now time.Time) (removable []keptFile) {
	path, thisFile := filepath.Join(f.Folder, key, name), []keptFile{{key, name}}
	about, err := os.Stat(path)
	if err != nil {
		return nil
	}
	if partName.MatchString(name) {
		if now.Sub(about.ModTime()) > mostPart {
			return thisFile
		}
		return nil
	}
	octets, err := readFile(path, mostShownOctets)
	if err != nil || name != hexDigest(octets) {
		return nil
	}
	chain := f.chainOf(string(octets), about.ModTime())
	ended, hasRoom := f.roomFor(key, len(octets), func(other *keptChain) bool { return other.hasEnded(now) })
	// (no other one gives way to one that has ended)
	isFree := hasRoom && len(ended) == 0
	if chain.hasEnded(now) && !isFree || chain.hasEnded(now.AddDate(0, 0, -f.Days)) {
		return thisFile
	}
	if hasRoom {
		return f.keepInMemory(key, chain, ended)
	}
	return nil
}

// keepInMemory keeps a sequence in memory, in place of the same one if the key has that, and takes those out for which roomFor has said that there is
// room then. It returns their files, which the caller removes. `writing` is held, or no other goroutine has `f` yet.
func (f *folderChains) keepInMemory(key string, chain keptChain, leaving []keptFile) (removable []keptFile) {
	f.mutex.Lock()
	defer f.mutex.Unlock()
	kept := keptFile{key, chain.name}
	f.forget(kept)
	for _, each := range leaving {
		f.forget(each)
		// (the file of the same sequence is now that of the new one)
		if each != kept {
			removable = append(removable, each)
		}
	}
	all := append(f.byKey[key], chain)
	sort.SliceStable(all, func(first, second int) bool { return all[first].until.Before(all[second].until) })
	f.byKey[key] = all
	f.octets += len(chain.text)
	return removable
}

// forget takes the sequence of a file out of memory, if it is there. The mutex is held.
func (f *folderChains) forget(file keptFile) {
	var others []keptChain
	for _, each := range f.byKey[file.key] {
		if each.name == file.name {
			f.octets -= len(each.text)
		} else {
			others = append(others, each)
		}
	}
	f.byKey[file.key] = others
	if len(others) == 0 {
		delete(f.byKey, file.key)
	}
}

// remove removes files of sequences, and the folders of their keys that are empty then. Errors do not matter: the next start reads what is still
// there. `writing` is held, or no other goroutine has `f` yet.
func (f *folderChains) remove(files ...keptFile) {
	for _, file := range files {
		os.Remove(filepath.Join(f.Folder, file.key, file.name))
		os.Remove(filepath.Join(f.Folder, file.key))
	}
}

// roomFor says whether a key can have one more sequence, of so many octets, if others are removed for which `gives` is true. It returns the files of as
// many of these as must be: none if there is room, and otherwise those of this key, and then of others, until there is. Without hasRoom, the caller
// removes none of `leaving`. It removes nothing itself. The mutex or `writing` is held, or no other goroutine has `f` yet.
func (f *folderChains) roomFor(key string, octets int, gives func(other *keptChain) bool) (leaving []keptFile, hasRoom bool) {
	// (each without the sequences in `leaving`: how many this key has, how many keys there are, and the octets of all with the new one)
	own, keys, total := len(f.byKey[key]), len(f.byKey), f.octets+octets
	isRoom := func() bool { return own < f.Each && (own > 0 || keys < f.Keys) && total <= mostLeft }
	// (adds sequences of one key to `leaving`, one after the other, until there is room)
	leaveOut := func(owner string, chains []keptChain) {
		others := len(chains)
		for place := 0; place < len(chains) && !isRoom(); place++ {
			if !gives(&chains[place]) {
				continue
			}
			leaving = append(leaving, keptFile{owner, chains[place].name})
			total -= len(chains[place].text)
			if owner == key {
				own--
			}
			if others--; others == 0 {
				keys--
			}
		}
	}
	leaveOut(key, f.byKey[key])
	// (first those keys of which all give way: only they make room for another key)
	for _, giveAll := range []bool{true, false} {
		for owner, chains := range f.byKey {
			// (a key that itself has f.Each gets no room by the sequences of others)
			if isRoom() || own >= f.Each {
				break
			}
			if owner != key && countOf(chains, gives) == len(chains) == giveAll {
				leaveOut(owner, chains)
			}
		}
	}
	return leaving, isRoom()
}

// countOf returns for how many sequences `gives` is true, up to the first for which it is not.
func countOf(chains []keptChain, gives func(chain *keptChain) bool) int {
	for place := range chains {
		if !gives(&chains[place]) {
			return place
		}
	}
	return len(chains)
}

// makeRoom is roomFor for a sequence at `now`: those that have ended give way and, only if that is not enough for one that isNamed, those that no list
// names now. One that is found to be named is not asked about again. `writing` is held. It fails if f.isNamed does.
func (f *folderChains) makeRoom(key string, chain keptChain, now time.Time) (leaving []keptFile, hasRoom bool, err error) {
	leaving, hasRoom = f.roomFor(key, len(chain.text), func(other *keptChain) bool { return other.hasEnded(now) })
	if hasRoom || !chain.isNamed {
		return leaving, hasRoom, nil
	}
	leaving, hasRoom = f.roomFor(key, len(chain.text), func(other *keptChain) bool {
		if err != nil || other.isNamed || other.hasEnded(now) {
			return other.hasEnded(now)
		}
		var isNamed bool
		isNamed, err = f.isNamed(other.text)
		f.mutex.Lock()
		defer f.mutex.Unlock()
		other.isNamed = isNamed
		return err == nil && !isNamed
	})
	return leaving, hasRoom && err == nil, err
}

// whyNotBeside returns why a sequence cannot be kept beside the others of its key: `known` if it is among them, `full` if they are as many as a key may
// have and it is not one to which others give way, and otherwise an empty answer.
func (c *chains) whyNotBeside(others []keptChain, chain keptChain) answer {
	for _, other := range others {
		if other.text == chain.text {
			return answerKnown
		}
	}
	if len(others) >= c.Each && !chain.isNamed {
		return answerFull
	}
	return ""
}

// chainOf returns a sequence in transport form as it is kept from a moment on: for c.Days days, or until the first of its certificates ends if that is
// earlier.
func (c *chains) chainOf(text string, from time.Time) keptChain {
	until := from.AddDate(0, 0, c.Days)
	if end, hasEnd := endOf(text); hasEnd && end.Before(until) {
		until = end
	}
	return keptChain{text: text, name: hexDigest([]byte(text)), until: until}
}

// notAfter matches the field of a certificate, in canonical form, that says when its window ends.
var notAfter = regexp.MustCompile(`\(9:not-after19:(\d{4}-\d\d-\d\d_\d\d:\d\d:\d\d)\)`)

// endOf returns the earliest end of the certificates of a sequence in transport form, if one has an end: the moment from which on it is not valid. Octets
// in a tag that look like an end count too: then the sequence is forgotten early, and the client can leave it again.
func endOf(text string) (end time.Time, hasEnd bool) {
	// (without white space and braces it is base64: anything else was refused before)
	octets, _ := base64.StdEncoding.DecodeString(strings.Trim(strings.Join(strings.Fields(text), ""), "{}"))
	for _, match := range notAfter.FindAllSubmatch(octets, -1) {
		limit, err := time.Parse("2006-01-02_15:04:05", string(match[1]))
		// (a window contains the second with which it ends)
		limit = limit.Add(time.Second)
		if err == nil && (!hasEnd || limit.Before(end)) {
			end, hasEnd = limit, true
		}
	}
	return end, hasEnd
}

// currentOf returns the sequences of a key that have not ended, in the order of their ends. It never fails.
func (f *folderChains) currentOf(key string, now time.Time) ([]keptChain, error) {
	f.mutex.Lock()
	defer f.mutex.Unlock()
	return notEnded(f.byKey[key], now), nil
}

// whyNotAdded returns the answer to a sequence that add would not keep, or an empty one. Then add would keep it or, if it isNamed, may: others give way
// to that one. It never fails. It removes nothing, since the sequence is not verified yet.
func (f *folderChains) whyNotAdded(key string, chain keptChain, now time.Time) (answer, error) {
	f.mutex.Lock()
	defer f.mutex.Unlock()
	refusal := f.whyNotBeside(notEnded(f.byKey[key], now), chain)
	if refusal != "" || chain.isNamed {
		return refusal, nil
	}
	if _, hasRoom := f.roomFor(key, len(chain.text), func(other *keptChain) bool { return other.hasEnded(now) }); !hasRoom {
		return answerFull, nil
	}
	return "", nil
}

// add keeps a sequence for a key in a file and in memory, if there is room, and returns the answer to the client: `kept`, `known` or `full`, or
// `failed` with an error if the file cannot be written, or if it is not known which sequences give way. Where room was needed, it removes those that
// do, once the new file is written.
func (f *folderChains) add(key string, chain keptChain, now time.Time) (answer, error) {
	f.writing.Lock()
	defer f.writing.Unlock()
	if refusal, err := f.whyNotAdded(key, chain, now); refusal != "" {
		return refusal, err
	}
	leaving, hasRoom, err := f.makeRoom(key, chain, now)
	if err != nil {
		return answerFailed, err
	}
	if !hasRoom {
		return answerFull, nil
	}
	if err := f.write(key, chain); err != nil {
		return answerFailed, err
	}
	f.remove(f.keepInMemory(key, chain, leaving)...)
	return answerKept, nil
}

// write writes the file of a sequence, whole or not at all: under a name with partSuffix at its end, from which it is renamed. It calls fsync, so
// that what a client was told is kept is not lost if the machine stops. After an error, also of fsync, it removes what it has written, if it can: the
// client is told that this is not kept, so the next start must not keep it.
func (f *folderChains) write(key string, chain keptChain) error {
	folder := filepath.Join(f.Folder, key)
	if err := os.MkdirAll(folder, 0o700); err != nil {
		return err
	}
	path := filepath.Join(folder, chain.name)
	err := writeSynced(path+partSuffix, chain.text)
	if err == nil {
		err = os.Rename(path+partSuffix, path)
	}
	if err != nil {
		f.remove(keptFile{key, chain.name + partSuffix})
		return err
	}
	if err = syncFolder(folder); err == nil {
		err = syncFolder(f.Folder)
	}
	if err != nil {
		f.remove(keptFile{key, chain.name})
	}
	return err
}

// judgeAll sets the answer of a record by the certificates that its request shows. Where it shows none and the list alone denies it, those that are
// kept for its key are tried. With `explain` in the configuration, a denial is explained once nothing grants the request. `path` is decoded.
func (d *decider) judgeAll(result *record, key guard.ProvenKey, path string, inquiry *inquiry, now time.Time) {
	// (each sequence is tried with the record as it is before the first decision)
	before, sequence := *result, inquiry.sequence
	d.judge(result, key, path, sequence, now)
	if sequence == "" && result.Answer == answerUnauthenticated && d.chains != nil {
		sequence = d.judgeByKept(result, before, key, path, now)
	}
	isDenied := result.Answer == answerNo || result.Answer == answerUnauthenticated
	// (without a list nothing was decided that could be explained)
	if d.config.Explain && isDenied && result.List != "" {
		d.explain(result, key, path, sequence, now)
	}
}

// judgeByKept tries each sequence that is kept for the key of a record, whose request the list alone denies, until one grants the request. If none
// does, the answer is `failed` if a decision failed or the kept sequences cannot be read. Otherwise it stays `unauthenticated`, and the record is
// that of the last sequence, which is returned, or stays as it is without one. `before` is the record before the first decision. `path` is decoded.
func (d *decider) judgeByKept(result *record, before record, key guard.ProvenKey, path string, now time.Time) (last string) {
	chains, err := d.chains.currentOf(result.Key, now)
	if err != nil {
		*result = before.withReason(answerFailed, err)
		return ""
	}
	for _, chain := range chains {
		tried := before
		d.judge(&tried, key, path, chain.text, now)
		switch {
		case tried.Answer == answerYes:
			tried.Kept = "used"
			*result = tried
			return ""
		case tried.Answer == answerFailed:
			*result = tried
		case result.Answer != answerFailed:
			tried.Answer = answerUnauthenticated
			*result, last = tried, chain.text
		}
	}
	return last
}
