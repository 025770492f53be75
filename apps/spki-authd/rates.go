package main

// How often a client may ask: a rate for each key and one for each address, and another one for each address that leaves certificates.

import (
	"net/netip"
	"sync"
	"time"
)

// A rateLimiter says how often each key, or each address, may ask: perSecond times a second, and at first or after a pause `most` times at once. A key
// that has not asked for long is forgotten, and may then ask as at first.
type rateLimiter struct {
	mutex           sync.Mutex
	perSecond, most float64
	buckets         *recentMap[string, *bucket]
}

// A bucket has how many requests a key or an address may still make at once, as of a moment.
type bucket struct {
	left float64
	at   time.Time
}

// The most keys or addresses that are remembered, and for how many seconds of a pause the requests may be made later where a rate is one a second.
const (
	mostBuckets  = 20_000
	savedSeconds = 2
)

// The bits of an IPv6 address that a provider gives to one client, who has all addresses behind them.
const bitsOfClient = 64

// newRateLimiter returns a limiter to so many requests a second of each caller. With 0 it allows each request.
func newRateLimiter(perSecond int) *rateLimiter {
	return &rateLimiter{perSecond: float64(perSecond), most: savedSeconds * float64(perSecond), buckets: newRecentMap[string, *bucket](mostBuckets)}
}

// newMinuteLimiter returns a limiter to so many requests a minute of each caller, who may make all of a minute at once. `perMinute` is at least 1.
func newMinuteLimiter(perMinute int) *rateLimiter {
	return &rateLimiter{perSecond: float64(perMinute) / 60, most: float64(perMinute), buckets: newRecentMap[string, *bucket](mostBuckets)}
}

// allows says whether a caller, by its key or its address, may make one more request at a moment, and counts that request if so. When the clock
// goes back, the caller gets no further requests by that.
func (r *rateLimiter) allows(caller string, now time.Time) bool {
	if r.perSecond == 0 {
		return true
	}
	r.mutex.Lock()
	defer r.mutex.Unlock()
	allowance, isKnown := r.buckets.get(caller)
	if !isKnown {
		allowance = &bucket{left: r.most, at: now}
		r.buckets.add(caller, allowance)
	}
	pause := now.Sub(allowance.at).Seconds()
	if pause > 0 {
		allowance.left += pause * r.perSecond
	}
	// (a request that began before the last one may come after it; by more than a second the clock was put back)
	if pause > 0 || pause < -1 {
		allowance.at = now
	}
	if allowance.left > r.most {
		allowance.left = r.most
	}
	if allowance.left < 1 {
		return false
	}
	allowance.left--
	return true
}

// networkOf returns what address_rate counts a client by: an IPv4 address, or the first bitsOfClient bits of an IPv6 address, so that nobody gets more by
// asking from many of its own. A text that is no address is returned as it is.
func networkOf(address string) string {
	parsed, err := netip.ParseAddr(address)
	if err != nil {
		return address
	}
	// (an IPv4 address may be written as ::ffff:192.0.2.1)
	parsed = parsed.Unmap()
	if parsed.Is4() {
		return parsed.String()
	}
	// (only a wrong number of bits is an error)
	network, _ := parsed.WithZone("").Prefix(bitsOfClient)
	return network.String()
}
