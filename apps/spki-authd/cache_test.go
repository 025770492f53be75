package main

// Tests of the cache, which keeps the valid signatures that were asked for last, so that they are not verified again.

import (
	"crypto/sha256"
	"fmt"
	"sync"
	"testing"

	"conguraki/spki/guard"
)

// verifies asks a cache whether a signature is valid, and whether that was known without `verify`. It computes the digest of the message, which the
// daemon has already.
func verifies(c *cache, signature guard.Signature, verify guard.Verify) (isValid, wasKnown bool) {
	return c.verifies(signature, sha256.Sum256(signature.Message), verify)
}

// numberedSignature returns a made-up signature, another one for each number. Its message is the number in decimal digits.
func numberedSignature(number int) guard.Signature {
	return guard.Signature{Key: []byte("key"), Message: []byte(fmt.Sprint(number)), Value: []byte("value")}
}

// TestCacheKeepsValidSignatures asks three times for a valid signature, which is verified once, and for one that is not valid, which is verified each
// time.
func TestCacheKeepsValidSignatures(t *testing.T) {
	cache, calls := newCache(10), 0
	verify := func(signed guard.Signature) bool {
		calls++
		return string(signed.Message) == "1"
	}
	for turn, wanted := range []bool{false, true, true} {
		if isValid, wasKnown := verifies(cache, numberedSignature(1), verify); !isValid || wasKnown != wanted {
			t.Errorf("turn %d: %v, %v", turn, isValid, wasKnown)
		}
		if isValid, wasKnown := verifies(cache, numberedSignature(2), verify); isValid || wasKnown {
			t.Error("a signature that is not valid is kept")
		}
	}
	if calls != 4 {
		t.Errorf("%d calls", calls)
	}
}

// TestCacheTellsPartsApart asks for signatures whose parts, one behind the other, are the octets of one that is kept, and for one that has its key
// and its message exchanged. None of them is known.
func TestCacheTellsPartsApart(t *testing.T) {
	cache, valid := newCache(10), func(guard.Signature) bool { return true }
	verifies(cache, guard.Signature{Key: []byte("ab"), Message: []byte("c"), Value: []byte("d")}, valid)
	for _, other := range []guard.Signature{
		{Key: []byte("a"), Message: []byte("bc"), Value: []byte("d")}, {Key: []byte("ab"), Message: []byte("cd")}, {Key: []byte("abcd")},
		{Key: []byte("c"), Message: []byte("ab"), Value: []byte("d")},
	} {
		if _, wasKnown := verifies(cache, other, valid); wasKnown {
			t.Errorf("%q is known", other)
		}
	}
}

// TestCacheIsBounded asks a cache of 100 signatures for 1000. That with the number 0, which is asked for each time, stays. A cache of 0 keeps none.
func TestCacheIsBounded(t *testing.T) {
	cache, valid := newCache(100), func(guard.Signature) bool { return true }
	for number := 0; number < 1000; number++ {
		verifies(cache, numberedSignature(number), valid)
		if len(cache.valid.old)+len(cache.valid.young) > 100 {
			t.Fatalf("%d are kept", len(cache.valid.old)+len(cache.valid.young))
		}
		if _, wasKnown := verifies(cache, numberedSignature(0), valid); !wasKnown {
			t.Fatal("what is asked for each time is dropped")
		}
	}
	none := newCache(0)
	verifies(none, numberedSignature(1), valid)
	if _, wasKnown := verifies(none, numberedSignature(1), valid); wasKnown {
		t.Error("a cache of none keeps one")
	}
}

// TestCacheInGoroutines asks one cache by eight goroutines at the same time for more signatures than it keeps. Only those whose number has two digits
// are valid.
func TestCacheInGoroutines(t *testing.T) {
	cache, hasTwoDigits := newCache(50), func(signature guard.Signature) bool { return len(signature.Message) == 2 }
	var all sync.WaitGroup
	for routine := 0; routine < 8; routine++ {
		all.Add(1)
		go func() {
			defer all.Done()
			for number := 0; number < 500; number++ {
				if isValid, _ := verifies(cache, numberedSignature(number%70), hasTwoDigits); isValid != (number%70 >= 10) {
					t.Error(number)
				}
			}
		}()
	}
	all.Wait()
}
