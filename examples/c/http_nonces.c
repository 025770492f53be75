/* Nonces of http_request.h in memory. Two sets have the hashes of key and nonce: if the young one is as old as a nonce is kept, it becomes the old
 * one. A hash is by SipHash-2-4 with a key of the process, so that nobody can choose two nonces of one hash. The second of these is refused. */
#define _DEFAULT_SOURCE
#include "http_request.h"

#include <stdint.h>
#include <stdlib.h>
#include <sys/random.h>

/* Each set is an array of 2 * `most` places for hashes, of which at most `most` are used. A free one is 0. `count` is how many hashes the young set
 * has, and `young_since` when it began, in seconds since 1970: 0 before the first nonce. `secret` is the key of SipHash. */
struct http_nonces {
    uint64_t secret[2], *young, *old;
    size_t most, count;
    long long young_since;
};

/* A word rotated to the left by `bits`, from 1 to 63. */
static uint64_t rotated(uint64_t word, unsigned bits)
{
    return word << bits | word >> (64 - bits);
}

/* Changes the state of SipHash by `count` rounds, with the rotations that its authors chose. */
static void sip_rounds(uint64_t v[4], int count)
{
    for (; count > 0; count--) {
        v[0] += v[1], v[1] = rotated(v[1], 13) ^ v[0], v[0] = rotated(v[0], 32);
        v[2] += v[3], v[3] = rotated(v[3], 16) ^ v[2];
        v[0] += v[3], v[3] = rotated(v[3], 21) ^ v[0];
        v[2] += v[1], v[1] = rotated(v[1], 17) ^ v[2], v[2] = rotated(v[2], 32);
    }
}

/* A SipHash under way: its state, the octets of the next word, the least octet first, and how many octets were added. */
struct sip {
    uint64_t v[4], word;
    size_t length;
};

/* Adds octets to a hash. */
static void sip_add(struct sip *sip, const void *octets, size_t length)
{
    const unsigned char *in = octets;
    for (size_t i = 0; i < length; i++) {
        sip->word |= (uint64_t)in[i] << (8 * (sip->length % 8));
        if (++sip->length % 8 == 0) {
            sip->v[3] ^= sip->word;
            sip_rounds(sip->v, 2);
            sip->v[0] ^= sip->word;
            sip->word = 0;
        }
    }
}

/* The hash by `secret` of a key and a nonce. It is never 0, which is a free place. An octet 00 is between key and nonce: a nonce has no such
 * octet, so no two pairs make the same octets. */
static uint64_t hash_of(const uint64_t secret[2], struct spki_text key, struct spki_text nonce)
{
    /* (the constants are those of SipHash: the octets of `somepseudorandomlygeneratedbytes`) */
    struct sip sip = {{secret[0] ^ 0x736f6d6570736575, secret[1] ^ 0x646f72616e646f6d, secret[0] ^ 0x6c7967656e657261,
                       secret[1] ^ 0x7465646279746573}, 0, 0};
    sip_add(&sip, key.octets, key.length);
    sip_add(&sip, "", 1); /* (the octet 00 that ends this string) */
    sip_add(&sip, nonce.octets, nonce.length);
    uint64_t last = sip.word | (uint64_t)sip.length << 56;
    sip.v[3] ^= last;
    sip_rounds(sip.v, 2);
    sip.v[0] ^= last;
    sip.v[2] ^= 0xff;
    sip_rounds(sip.v, 4);
    uint64_t hash = sip.v[0] ^ sip.v[1] ^ sip.v[2] ^ sip.v[3];
    return hash ? hash : 1;
}

/* The place of a hash in a set: where it is, or the free one that it would have. There is a free one, since at most half of the places are used. */
static uint64_t *place_of(uint64_t *set, size_t most, uint64_t hash)
{
    size_t at = (size_t)(hash % (2 * most));
    while (set[at] && set[at] != hash)
        at = (at + 1) % (2 * most);
    return &set[at];
}

/* Two empty sets, each for `most` nonces, which http_nonces_close frees. Null if `most` is 0 or too large, or without memory or randomness. */
struct http_nonces *http_nonces_open(size_t most)
{
    struct http_nonces *nonces = most > 0 && most < SIZE_MAX / 2 / sizeof *nonces->young ? calloc(1, sizeof *nonces) : NULL;
    if (!nonces)
        return NULL;
    nonces->most = most;
    nonces->young = calloc(2 * most, sizeof *nonces->young);
    nonces->old = calloc(2 * most, sizeof *nonces->old);
    if (nonces->young && nonces->old && getrandom(nonces->secret, sizeof nonces->secret, 0) == (ssize_t)sizeof nonces->secret)
        return nonces;
    http_nonces_close(nonces);
    return NULL;
}

/* Once the young set is `seconds` old at `now`, drops the old set, puts the young one in its place, and begins an empty one. From twice `seconds` on,
 * both are dropped. */
static void drop_old_set(struct http_nonces *nonces, long long now, long long seconds)
{
    long long age = now - nonces->young_since;
    if (age < seconds)
        return;
    uint64_t *last_young = nonces->young;
    nonces->young = nonces->old;
    nonces->old = last_young;
    memset(nonces->young, 0, 2 * nonces->most * sizeof *nonces->young);
    if (age >= 2 * seconds)
        memset(nonces->old, 0, 2 * nonces->most * sizeof *nonces->old);
    nonces->young_since = now;
    nonces->count = 0;
}

/* Keeps a nonce of a key for at least `seconds`, the same in each call, from `now`, in seconds since 1970. `store` is a struct http_nonces. Returns
 * null, or the name of the refusal: "nonce-seen" if it is kept already, or "store-full": nothing is forgotten early. If the clock has gone back to
 * over a second before the young set began, each nonce is refused as "before-start", since it may be forgotten. */
const char *http_nonces_take(void *store, struct spki_text key, struct spki_text nonce, long long now, long long seconds)
{
    struct http_nonces *nonces = store;
    const uint64_t hash = hash_of(nonces->secret, key, nonce);
    if (now < nonces->young_since - 1)
        return "before-start"; /* (what was dropped had expired a second before the young set began) */
    drop_old_set(nonces, now, seconds);
    uint64_t *place = place_of(nonces->young, nonces->most, hash);
    if (*place || *place_of(nonces->old, nonces->most, hash))
        return "nonce-seen";
    if (nonces->count == nonces->most)
        return "store-full";
    *place = hash;
    nonces->count++;
    return NULL;
}

/* Frees what http_nonces_open returned, also null. */
void http_nonces_close(struct http_nonces *nonces)
{
    if (nonces) {
        free(nonces->young);
        free(nonces->old);
    }
    free(nonces);
}
