package main

// The access lists and the ended certificates that are in force, and reloads, which read both again. An ended certificate is one that an operator has
// ended before its time: a file or a store has its digest.

import (
	"crypto/sha256"
	"encoding/hex"
	"fmt"
	"sync/atomic"
	"time"
)

// An access is the access lists, and the certificates that have ended early. All files are read at once, and then it does not change. What is in a store
// changes: a goroutine of the store polls that.
type access struct {
	lists []*list
	// What the file of ended certificates has.
	ended *endedCertificates
	// What digestOfLists has returned, and when the files were read.
	digest string
	read   time.Time
}

// An accessKeeper has the access that is in force, which is nil until a reload succeeds, and the outcome of the last reload, or nil before the first one.
type accessKeeper struct {
	present atomic.Pointer[access]
	last    atomic.Pointer[reloadOutcome]
	// The reloads, of which the first is that of the start, and those that were refused.
	reloads, refused atomic.Uint64
}

// A reloadOutcome is when a reload ended, and why it was refused, or nil.
type reloadOutcome struct {
	at    time.Time
	fault error
}

// readAccess reads the access lists of a configuration and its file of ended certificates. `now` is noted as the time of that. It fails if a file cannot
// be read or is refused, or if the settings of a store are wrong: then no list in a file stays open. A store is opened by the first call alone, and stays
// open.
func readAccess(c *config, now time.Time) (*access, error) {
	policy, err := policyOf(c.Policy)
	if err != nil {
		return nil, err
	}
	present := &access{ended: noneEnded, read: now}
	for _, scope := range c.scopes() {
		opened, err := scope.read(policy, c)
		if err != nil {
			present.close()
			return nil, err
		}
		opened.scope = scope
		present.lists = append(present.lists, opened)
	}
	present.digest = present.digestOfLists()
	if err := present.readEnded(c.Ended); err != nil {
		present.close()
		return nil, err
	}
	return present, nil
}

// readEnded reads the digests of ended certificates. With an empty path, which is that of a configuration without such a file, none has ended. It fails if
// the file cannot be read or is refused: then the access is not used.
func (a *access) readEnded(path string) error {
	if path == "" {
		return nil
	}
	octets, err := readFile(path, mostEnded)
	if err != nil {
		return err
	}
	if a.ended, err = parseEnded(octets); err != nil {
		err = fmt.Errorf("%s: %w", path, err)
	}
	return err
}

// digestOfLists returns the stamp of a single list. For several lists it returns the SHA-256 digest, in hexadecimal digits, of a line for each, with its
// host, prefix and stamp. The stamp of a list is the digest of its file, or names the last change of its store. Operators compare the result between
// daemons.
func (a *access) digestOfLists() string {
	if len(a.lists) == 1 {
		return a.lists[0].stamp()
	}
	hash := sha256.New()
	for _, each := range a.lists {
		fmt.Fprintf(hash, "%s%s %s\n", each.Host, each.Prefix, each.stamp())
	}
	return hex.EncodeToString(hash.Sum(nil))
}

// entries returns the number of entries of all lists in files. Those in a store are not counted.
func (a *access) entries() int {
	count := 0
	for _, each := range a.lists {
		if each.store == nil {
			count += each.guard.Entries()
		}
	}
	return count
}

// close frees the lists in files, each once the questions that it was asked are closed. Stores stay open: the next access uses them too.
func (a *access) close() {
	for _, each := range a.lists {
		if each.store == nil {
			each.guard.Close()
		}
	}
}

// listOf returns the list that decides for a host and a decoded path, the first that fits both, or nil if none does.
func (a *access) listOf(host, path string) *list {
	for _, each := range a.lists {
		if each.fits(host, path) {
			return each
		}
	}
	return nil
}

// hasEnded says whether a certificate has ended early: the file of ended certificates or a store has its digest.
func (a *access) hasEnded(certificate digest) bool {
	_, hasEnded := a.ended.digests[certificate]
	for _, each := range a.lists {
		hasEnded = hasEnded || each.store != nil && each.store.hasEnded(certificate)
	}
	return hasEnded
}

// checkStoresFresh returns an error if a store is stale. What has ended in one store counts for all lists, so each must be fresh.
func (a *access) checkStoresFresh() error {
	for _, each := range a.lists {
		if each.store != nil {
			if err := each.store.checkFresh(); err != nil {
				return err
			}
		}
	}
	return nil
}

// reload calls replace, and records and counts the outcome, also if it fails. `now` is noted as the time of the reload. With allowFewerEnded,
// certificates that have ended may be missing in the new file, and count again. A question that a guard was asked ends with the files that it began
// with.
func (k *accessKeeper) reload(c *config, allowFewerEnded bool, now time.Time) error {
	err := k.replace(c, allowFewerEnded, now)
	k.last.Store(&reloadOutcome{now, err})
	k.reloads.Add(1)
	if err != nil {
		k.refused.Add(1)
	}
	return err
}

// replace reads the files of a configuration, also those for TLS, and puts them in the place of those that were read before. It fails if a file cannot be
// read or is refused, if a store cannot be opened, or if an ended certificate is no longer listed and allowFewerEnded is false: then nothing is replaced.
func (k *accessKeeper) replace(c *config, allowFewerEnded bool, now time.Time) error {
	certificate, err := c.TLS.read()
	if err != nil {
		return err
	}
	next, err := readAccess(c, now)
	if err != nil {
		return err
	}
	old := k.present.Load()
	if old != nil && !allowFewerEnded {
		if lost := next.ended.countLost(old.ended); lost > 0 {
			next.close()
			return fmt.Errorf("%s: %d digests that are in force are missing: `spki-authd -reload -fewer` has these certificates count again", c.Ended, lost)
		}
	}
	c.TLS.use(certificate)
	k.present.Store(next)
	if old != nil {
		old.close()
	}
	return nil
}

// listFor returns the present access, and the list in it that decides for a host and a path. It fails with errNoList if none does.
func (k *accessKeeper) listFor(host, path string) (*access, *list, error) {
	present := k.present.Load()
	if list := present.listOf(host, path); list != nil {
		return present, list, nil
	}
	return nil, nil, errNoList
}
