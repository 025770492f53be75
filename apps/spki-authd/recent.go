package main

// The map of a cache: it keeps what was asked for most recently.

import "sync"

// A recentMap keeps the values that were asked for most recently, up to twice `half`. It has two halves: if the young one is full, the old one is dropped
// and the young one becomes the old one. A value that is found in the old one is put into the young one too.
type recentMap[K comparable, V any] struct {
	mutex      sync.Mutex
	half       int
	old, young map[K]V
}

// newRecentMap returns a map of at most `most` values. With 0 or 1 it keeps none.
func newRecentMap[K comparable, V any](most int) *recentMap[K, V] {
	return &recentMap[K, V]{half: most / 2, young: map[K]V{}}
}

// get returns the value of a key, and whether it is kept. If it is in the old half, it is put into the young one too.
func (r *recentMap[K, V]) get(key K) (V, bool) {
	r.mutex.Lock()
	defer r.mutex.Unlock()
	if value, isYoung := r.young[key]; isYoung {
		return value, true
	}
	value, isOld := r.old[key]
	if isOld {
		r.addYoung(key, value)
	}
	return value, isOld
}

// add keeps a value for a key. Values that were not asked for in a long time may be dropped.
func (r *recentMap[K, V]) add(key K, value V) {
	r.mutex.Lock()
	defer r.mutex.Unlock()
	r.addYoung(key, value)
}

// addYoung adds a value to the young half, or to a new one if that is full: then the old half is dropped. The mutex is held. If half is 0, it keeps
// nothing.
func (r *recentMap[K, V]) addYoung(key K, value V) {
	if r.half == 0 {
		return
	}
	if len(r.young) >= r.half {
		r.old, r.young = r.young, make(map[K]V, r.half)
	}
	r.young[key] = value
}
