// Keeps the nonces of signed requests, so that no request counts twice.

package httpsig

import (
	"hash/maphash"
	"sync"
)

// Nonces keeps which nonces were used. Several services may share one, also in several processes: then Take must be one step of the store, and not a
// look and a write.
type Nonces interface {
	// Take returns nil if this nonce of this key was not used before, and keeps it for `seconds` from `now`, which is in seconds since 1970. If it
	// was used, it returns NonceSeen. Any other error does not say whether it was, and the request proves no key either.
	Take(key []byte, nonce string, now, seconds int64) error
}

// The most nonces in each set of the Memory of NewVerifier.
const usualNonces = 1_000_000

// A Memory keeps nonces in two sets, as hashes of key and nonce. New ones go into the young set. Once the young set is as old as the time for which a
// nonce is kept, it becomes the old set, and the old set is dropped. If two nonces have the same hash, the second is refused.
type Memory struct {
	mutex sync.Mutex
	seed  maphash.Seed
	// most is the most nonces of the young set.
	most int
	// youngSince is when the young set was begun, in seconds since 1970.
	youngSince int64
	old, young map[uint64]struct{}
}

// NewMemory returns a store of two empty sets, which have at most `most` nonces each.
func NewMemory(most int) *Memory {
	return &Memory{seed: maphash.MakeSeed(), most: most, old: map[uint64]struct{}{}, young: map[uint64]struct{}{}}
}

// Take keeps a nonce of a key for at least `seconds` from `now`, which is in seconds since 1970. The error is NonceSeen if it was used before and is
// still kept, and StoreFull if the young set is full: nothing is forgotten early. If the clock has gone back to over a second before the young set
// began, each nonce is refused as BeforeStart, since it may be forgotten.
func (m *Memory) Take(key []byte, nonce string, now, seconds int64) error {
	var hasher maphash.Hash
	hasher.SetSeed(m.seed)
	hasher.Write(key)
	// (it separates key and nonce: a nonce has no such octet)
	hasher.WriteByte(0)
	hasher.WriteString(nonce)
	hash := hasher.Sum64()
	m.mutex.Lock()
	defer m.mutex.Unlock()
	if now < m.youngSince-1 {
		// (what was dropped had expired a second before the young set began)
		return BeforeStart
	}
	m.dropOld(now, seconds)
	if _, isOld := m.old[hash]; isOld {
		return NonceSeen
	}
	if _, isYoung := m.young[hash]; isYoung {
		return NonceSeen
	}
	if len(m.young) >= m.most {
		return StoreFull
	}
	m.young[hash] = struct{}{}
	return nil
}

// dropOld drops the old set, and puts the young one in its place, once the young one is `seconds` old. From twice `seconds` on, both are dropped. The
// caller has locked the mutex.
func (m *Memory) dropOld(now, seconds int64) {
	age := now - m.youngSince
	if age < seconds {
		return
	}
	m.old, m.young, m.youngSince = m.young, map[uint64]struct{}{}, now
	if age >= 2*seconds {
		m.old = map[uint64]struct{}{}
	}
}
