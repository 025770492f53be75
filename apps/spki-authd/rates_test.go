package main

// Tests of how often a client may ask (rateLimiter), and of the clock. With a rate of so many requests a second, a client may make twice as many at
// once after a pause of two seconds (savedSeconds), and at first. Status 429 says that it asks too often.

import (
	"fmt"
	"net/http"
	"strings"
	"testing"
	"time"
)

// TestRates asks as two clients at several times, and counts how many requests are allowed: five a second, and ten at once at first and after a pause of
// two seconds. A row has the client, the time since the row before, and how many requests are made and allowed. In one row the clock goes back by an hour.
func TestRates(t *testing.T) {
	limiter, now := newRateLimiter(5), time.Unix(1_000_000, 0)
	count := func(who string, times int) (allowed int) {
		for turn := 0; turn < times; turn++ {
			if limiter.allows(who, now) {
				allowed++
			}
		}
		return allowed
	}
	for _, row := range []struct {
		who           string
		later         time.Duration
		times, wanted int
	}{
		{"a", 0, 100, 10}, {"b", 0, 3, 3}, {"a", time.Second, 100, 5}, {"a", 200 * time.Millisecond, 100, 1}, {"b", 0, 100, 10},
		{"a", -time.Hour, 100, 0}, {"a", time.Second, 100, 5}, {"a", 24 * time.Hour, 100, 10},
	} {
		now = now.Add(row.later)
		if allowed := count(row.who, row.times); allowed != row.wanted {
			t.Errorf("%+v: %d", row, allowed)
		}
	}
	unlimited := newRateLimiter(0)
	for turn := 0; turn < 1000; turn++ {
		if !unlimited.allows("a", now) {
			t.Fatal("a rate of 0 is a limit")
		}
	}
}

// TestRatesAreBounded asks from more addresses than are remembered, all at one moment. The address `a` asks again and again: it is not forgotten, and
// so gets two requests in all.
func TestRatesAreBounded(t *testing.T) {
	limiter, now, allowed := newRateLimiter(1), time.Unix(1_000_000, 0), 0
	for number := 0; number < 3*mostBuckets; number++ {
		limiter.allows(fmt.Sprint(number), now)
		if limiter.allows("a", now) {
			allowed++
		}
	}
	if count := len(limiter.buckets.old) + len(limiter.buckets.young); count > mostBuckets || allowed != savedSeconds {
		t.Errorf("%d are known, %d are allowed", count, allowed)
	}
}

// TestAddressesOfOneClient asks from many addresses at one moment, and counts how many requests are allowed, which are at most two of each client. All IPv6
// addresses with the same first 64 bits are one client, and so are all forms of an IPv4 address, and what is no address, if it is the same text.
func TestAddressesOfOneClient(t *testing.T) {
	for name, row := range map[string]struct {
		addresses []string
		wanted    int
	}{
		"a network of IPv6":  {[]string{"2001:db8::1", "2001:db8::2", "2001:db8:0:0:ffff:ffff:ffff:ffff", "2001:DB8::3", "2001:db8::1%eth0"}, 2},
		"networks of IPv6":   {[]string{"2001:db8::1", "2001:db8:0:1::1", "2001:db8:0:2::1"}, 3},
		"IPv4":               {[]string{"192.0.2.1", "::ffff:192.0.2.1", "::ffff:c000:201"}, 2},
		"addresses of IPv4":  {[]string{"192.0.2.1", "192.0.2.2", "::ffff:192.0.2.3"}, 3},
		"what is no address": {[]string{"unix:", "unix:", "unix:", "a", "192.0.2.01"}, 4},
	} {
		s := newSite(t, `, "limits": {"address_rate": 1}`)
		fixed, allowed := time.Now(), 0
		s.now = func() time.Time { return fixed }
		for _, address := range row.addresses {
			pairs := []string{"X-Original-Method", "GET", "X-Original-URI", "/web/x", "X-Client-Cert", s.alice.escaped(), "X-Real-IP", address}
			switch response := s.ask(pairs...); response.StatusCode {
			case http.StatusOK:
				allowed++
			case http.StatusTooManyRequests:
				if line := s.lastLine(t); line.Address != address {
					t.Errorf("%s: %+v", name, line)
				}
			default:
				t.Errorf("%s: %s is %d", name, address, response.StatusCode)
			}
		}
		if allowed != row.wanted {
			t.Errorf("%s: %d are allowed, wanted %d", name, allowed, row.wanted)
		}
	}
}

// TestTooManyRequests asks more often than a key or an address may. With a rate of 1, two requests at once are allowed, and further ones get 429, or the
// refused_status 403, until a second later. Where addresses are limited, a request without one is refused.
func TestTooManyRequests(t *testing.T) {
	for fields, wanted := range map[string]int{"": 429, `, "refused_status": 403`: 403} {
		for limit, address := range map[string]string{"address_rate": "192.0.2.1", "key_rate": ""} {
			s := newSite(t, fields+`, "limits": {"`+limit+`": 1}`)
			fixed := time.Now()
			s.now = func() time.Time { return fixed }
			pairs := []string{"X-Original-Method", "GET", "X-Original-URI", "/web/x", "X-Client-Cert", s.alice.escaped()}
			if address != "" {
				if response := s.ask(pairs...); response.StatusCode/100 != 4 {
					t.Errorf("no address: %d", response.StatusCode)
				}
				pairs = append(pairs, "X-Real-IP", address)
			}
			for turn, status := range []int{200, 200, wanted, wanted} {
				if response := s.ask(pairs...); response.StatusCode != status {
					t.Errorf("%s, turn %d: %d, wanted %d", limit, turn, response.StatusCode, status)
				}
			}
			if line := s.lastLine(t); line.Answer != answerLimited || line.Address != address {
				t.Errorf("%+v", line)
			}
			fixed = fixed.Add(time.Second)
			if response := s.ask(pairs...); response.StatusCode != 200 {
				t.Errorf("a second later: %d", response.StatusCode)
			}
		}
	}
}

// TestClock notes by how much the time of day is ahead. Only where that is a second less than before, it is counted as going back.
func TestClock(t *testing.T) {
	var watched clock
	for _, row := range []struct {
		ahead  time.Duration
		isBack bool
	}{{0, false}, {time.Second, false}, {500 * time.Millisecond, false}, {-500 * time.Millisecond, true}, {-500 * time.Millisecond, false}, {time.Hour, false}} {
		if watched.noteAhead(row.ahead) != row.isBack {
			t.Errorf("%+v", row)
		}
	}
	if watched.timesBack.Load() != 1 {
		t.Errorf("%d times", watched.timesBack.Load())
	}
}

// TestClockIsWatched has a daemon look at its clock three times. Before the second look the clock is put back by a second: the daemon writes one event.
func TestClockIsWatched(t *testing.T) {
	s := newSite(t, "")
	var messages journal
	daemon := &daemon{decider: s.decider, messages: newWriter(&stream{to: messages.writer()}, time.Minute, nil)}
	for turn := 1; turn <= 3; turn++ {
		if turn == 2 {
			// (as if it had been ahead by a second until now)
			s.clock.ahead.Add(int64(time.Second))
		}
		daemon.watchClock()
	}
	if text := messages.String(); strings.Count(text, `"event":"the clock went back"`) != 1 || strings.Count(text, "\n") != 1 {
		t.Errorf("%q", text)
	}
}
