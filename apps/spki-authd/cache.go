package main

// Which signatures of certificates are known to be valid, so that they are not verified again.

import (
	"crypto/sha256"
	"encoding/binary"
	"encoding/hex"

	"conguraki/spki/guard"
)

// A digest is by SHA-256.
type digest = [sha256.Size]byte

// hexDigest returns the SHA-256 digest of octets, in hexadecimal digits.
func hexDigest(octets []byte) string {
	digest := sha256.Sum256(octets)
	return hex.EncodeToString(digest[:])
}

// A cache keeps which signatures are valid, each by its digestOf. A signature that is not valid is not kept. A valid one stays valid, so nothing in the
// cache can become wrong.
type cache struct {
	valid *recentMap[digest, struct{}]
}

// newCache returns a cache of at most `most` signatures. With 0 or 1 it keeps none, since a recentMap has two halves.
func newCache(most int) *cache {
	return &cache{newRecentMap[digest, struct{}](most)}
}

// verifies says whether a signature is valid, and whether that was known before. One that is not known is verified by `verify`, and kept if it is valid.
// `message` is the digest of signature.Message, which callers have.
func (c *cache) verifies(signature guard.Signature, message digest, verify guard.Verify) (isValid, wasKnown bool) {
	name := digestOf(signature, message)
	if _, wasKnown := c.valid.get(name); wasKnown {
		return true, true
	}
	if !verify(signature) {
		return false, false
	}
	c.valid.add(name, struct{}{})
	return true, false
}

// The octets that the key, the digest and the value of most signatures have together. For longer ones digestOf takes more memory.
const roomForSignature = 512

// digestOf returns the digest of a signature: of its key, of `message`, which is the digest of its message, and of its value. The length of the key is
// hashed in front of them, so that no two signatures have the same octets.
func digestOf(signature guard.Signature, message digest) digest {
	var room [roomForSignature]byte
	binary.BigEndian.PutUint64(room[:], uint64(len(signature.Key)))
	text := room[:8]
	for _, part := range [][]byte{signature.Key, message[:], signature.Value} {
		text = append(text, part...)
	}
	return sha256.Sum256(text)
}
