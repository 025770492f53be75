package main

// The sequences that clients have left, in a store in PostgreSQL.

import (
	"encoding/hex"
	"fmt"
	"time"
)

// storedChains is the chainKeeper of a store: so each daemon finds the sequences that clients have left with any. folderChains is that of a folder.
type storedChains struct {
	// The configuration, with the limits.
	*chains
	reader reader
	// What was read for a key in the last cachedFor, by the key's digest in hexadecimal digits.
	cache *recentMap[string, readChains]
}

// A readChains is what a store has for a key, and when that was read.
type readChains struct {
	chains []keptChain
	at     time.Time
}

// The most keys whose sequences are cached, and for how long: a sequence that was left with another daemon is found so much later.
const (
	mostCached = 1_000
	cachedFor  = 2 * time.Second
)

// newStoredChains returns the chainKeeper of the store that a reader asks. `c` has the limits.
func newStoredChains(c *chains, reader reader) *storedChains {
	return &storedChains{c, reader, newRecentMap[string, readChains](mostCached)}
}

// currentOf returns the sequences of a key that have not ended, in the order of their ends. What the store has returned is used again for cachedFor,
// unless the clock goes back. It fails if the store does not answer.
func (s *storedChains) currentOf(key string, now time.Time) ([]keptChain, error) {
	cached, isCached := s.cache.get(key)
	if age := now.Sub(cached.at); !isCached || age < 0 || age > cachedFor {
		var err error
		if cached.chains, err = s.reader.chains(digestIn(key)); err != nil {
			return nil, fmt.Errorf("kept certificates: %w", err)
		}
		cached.at = now
		s.cache.add(key, cached)
	}
	return notEnded(cached.chains, now), nil
}

// whyNotAdded returns `known` or `full` for a sequence that has no place beside those that currentOf returns for its key, and otherwise an empty answer:
// add may then still refuse it. What currentOf returns may be cached, and only the store knows whether there is room for one more key. Of a sequence that
// isNamed the store decides all: it notes that also of one that it has. It fails if the store does not answer.
func (s *storedChains) whyNotAdded(key string, chain keptChain, now time.Time) (answer, error) {
	if chain.isNamed {
		return "", nil
	}
	others, err := s.currentOf(key, now)
	return s.whyNotBeside(others, chain), err
}

// add has the store keep a sequence for a key, and returns its answer: `kept`, `known` or `full`, or `failed` with an error, also where the store
// answers anything else. Without an error, what was cached for the key is forgotten. The last argument, the time, is not needed: the store has a clock.
func (s *storedChains) add(key string, chain keptChain, _ time.Time) (answer, error) {
	reply, err := s.reader.keep(digestIn(key), chain, s.chains)
	if err == nil && reply != answerKept && reply != answerKnown && reply != answerFull {
		err = fmt.Errorf("the store answers %q", reply)
	}
	if err != nil {
		return answerFailed, fmt.Errorf("kept certificates: %w", err)
	}
	// (what has no time is too old to be used)
	s.cache.add(key, readChains{})
	return reply, nil
}

// digestIn returns the octets of a digest, whose 64 hexadecimal digits are `text`.
func digestIn(text string) (octets digest) {
	// (hexDigest has made the text, so this cannot fail)
	_, _ = hex.Decode(octets[:], []byte(text))
	return octets
}
