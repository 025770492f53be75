package main

// How a store is polled, what -health and the metrics say of it, and the stamp of a list, by which states of it are compared. A beat is a mark with the
// time that the store gets each second.

import (
	"fmt"
	"time"
)

// poll calls pollOnce again and again, as long as the process runs. The store keeps the error of the last call.
func (s *store) poll() {
	for {
		_ = s.pollOnce()
		time.Sleep(pollEvery)
	}
}

// pollOnce reads what has changed since the last poll. Where the changes are not known, as at the first poll or after a failover to a server that
// lacks some, or where they are too many, it drops all lists that are kept, and reads all ended certificates again. If the reader fails, it returns
// that error, what was polled last stays, and the reader's connections are renewed: another server may answer next.
func (s *store) pollOnce() error {
	before, begun := s.lastPolled(), s.now()
	var result pollResult
	var err error
	follows := false
	if !before.at.IsZero() {
		result, err = s.reader.changesSince(before.changes)
		// (another time of the same change is another history, and fewer changes or beats are an older state)
		follows = err == nil && !result.isCut && result.times[before.changes] == before.token && result.changes >= before.changes &&
			result.beat >= before.beat
	}
	if err == nil && !follows {
		begun = s.now()
		result, err = s.reader.allEnded()
	}
	s.mutex.Lock()
	defer s.mutex.Unlock()
	if err != nil {
		s.fault = err
		s.reader.renew()
		return err
	}
	s.noteResult(result, begun, follows)
	return nil
}

// noteResult notes the result of a poll that was begun at a moment. `follows` says that these are the changes since the poll before. Otherwise the
// result has all ended certificates, and replaces what was polled before. Lists that were read at a later change than the one that was polled before
// are dropped if this poll has not read that change. The mutex is held.
func (s *store) noteResult(result pollResult, begun time.Time, follows bool) {
	s.fault = nil
	if !follows {
		s.kept.clear()
		s.ended = make(map[digest]struct{}, len(result.ended))
		s.polled.history++
	}
	for _, each := range result.ended {
		s.ended[each] = struct{}{}
	}
	for _, each := range result.changed {
		s.kept.drop(each)
	}
	for keyDigest, state := range s.unpolled {
		// (without this change, or with another one of its number, this is another server than that which was read, as after a failover)
		if moment, isRead := result.times[state.changes]; !isRead || moment != state.token {
			s.kept.drop(keyDigest[:])
		}
	}
	s.unpolled = map[digest]storeState{}
	// (`at` is when a poll first read the present beat. Round(0) drops the monotonic clock: the lag is by the time of day)
	if s.polled.at.IsZero() || result.beat != s.polled.beat || result.beaten != s.polled.beaten {
		s.polled.at, s.polled.lag = begun, begun.Round(0).Sub(time.UnixMicro(result.beaten))
	}
	s.polled.storeState = result.storeState
}

// statusLine returns a line on the state of the store, for people. The error says what an operator must look after, and is nil if all is well.
func (s *store) statusLine() (string, error) {
	err := s.checkFresh()
	s.mutex.RLock()
	defer s.mutex.RUnlock()
	if err == nil {
		err = s.fault
	}
	if err == nil && s.polled.waits > 0 {
		err = fmt.Errorf("a change of the store has waited %d s for %s", s.polled.waits, s.polled.holder)
	}
	age := "not read yet"
	if !s.polled.at.IsZero() {
		// (checkFresh has returned the error of this)
		sinceBeat, _ := s.polled.age(s.now())
		age = fmt.Sprintf("%.1f s old", sinceBeat.Seconds())
	}
	return fmt.Sprintf("store: change %d, beat %d, %s, ended %d, kept %d keys in %d octets, read %d times, not read %d, skipped rows %d\n",
		s.polled.changes, s.polled.beat, age, len(s.ended), s.kept.count(), s.kept.size, s.count.misses, s.count.failures, s.count.skipped), err
}

// stamp returns a text by which states of a list are compared: the digest of a file, or `change-NUMBER-TIME` of the last change of a store that was
// polled, the time in microseconds since 1970. NUMBER and TIME are 0 before the first poll, and while the store has no change.
func (l *list) stamp() string {
	if l.store == nil {
		return l.digest
	}
	state := l.store.lastPolled()
	return fmt.Sprintf("change-%d-%d", state.changes, state.token)
}

// digestNow returns the digest of the lists, as digestOfLists does. It computes it again only if a list is in a store, from the state that was polled last.
func (a *access) digestNow() string {
	for _, each := range a.lists {
		if each.store != nil {
			return a.digestOfLists()
		}
	}
	return a.digest
}

// storeFamilies are the metrics of a store: the name, the kind and the help for exposition.writeFamily, and the function that returns the value.
var storeFamilies = []struct {
	name, kind, help string
	valueOf          func(s *store) any
}{
	{"store_stale", "gauge", "1 if the store is stale, and each decision by it 503.", func(s *store) any { return oneIf(s.checkFresh() != nil) }},
	{"store_change", "gauge", "The number of the last change that was polled.", func(s *store) any { return s.lastPolled().changes }},
	{"store_change_waits_seconds", "gauge", "How long a change has waited for somebody who holds it up, or 0.",
		func(s *store) any { return s.lastPolled().waits }},
	{"store_holders_ended_total", "counter", "How many of those who held changes up spki-store beat has ended.",
		func(s *store) any { return s.lastPolled().holdersEnded }},
	{"store_rows_kept_total", "counter", "Decisions by rows that were kept.", func(s *store) any { return s.countsNow().hits }},
	{"store_rows_read_total", "counter", "Decisions whose rows were read.", func(s *store) any { return s.countsNow().misses }},
	{"store_rows_skipped_total", "counter", "Rows that were read and skipped, since each is not one entry of its principal.",
		func(s *store) any { return s.countsNow().skipped }},
	{"store_rows_failed_total", "counter", "Decisions that failed since their rows could not be read.", func(s *store) any { return s.countsNow().failures }},
}

// writeStores writes the metrics of all lists in stores. The label `list` is the number of the list in the configuration, from 1. Without a store it
// writes nothing.
func (e *exposition) writeStores(present *access) {
	for _, family := range storeFamilies {
		isBegun := false
		for place, each := range present.lists {
			if each.store == nil {
				continue
			}
			if !isBegun {
				e.writeFamily(family.name, family.kind, family.help)
				isBegun = true
			}
			e.writeValue(family.name, fmt.Sprintf("{list=\"%d\"}", place+1), family.valueOf(each.store))
		}
	}
}

// countsNow returns a copy of the store's counts.
func (s *store) countsNow() storeCounts {
	s.mutex.RLock()
	defer s.mutex.RUnlock()
	return s.count
}
