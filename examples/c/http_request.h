/* Proves the client's key in each HTTP request, by HTTP Message Signatures (RFC 9421) of the profile in docs/SIGNATURES.md. A service takes
 * http_request.c along with verify.h and one of its verifiers, and http_nonces.c unless it keeps nonces itself.
 *
 *     struct http_service service = {names, 1, time(NULL), http_nonces_take, http_nonces_open(100000)};
 *     if (http_request_check(&service, &request, now, &proof) != NULL)
 *         return false;
 *     question.key = http_proven_key(&proof);
 *     return verify_decides(guard, &question).status == SPKI_YES && http_proof_take(&service, &proof, now) == NULL;
 *
 * The nonce is taken for a yes alone: anybody can make a key, and fill the store by requests that are denied. */
#ifndef HTTP_REQUEST_H
#define HTTP_REQUEST_H

#include "verify.h"

/* A line of a header: the name in any letters, and the value. */
struct http_field {
    struct spki_text name, value;
};

/* A request, as it was sent: the name that the client asks with its port, and the path with the query as in the first line of HTTP/1.1. If `has_body`
 * is false, the method and the fields say whether the request may have a body. That is enough for HTTP/1.1. By HTTP/2 or HTTP/3 a GET or a HEAD may
 * have a body without `Content-Length`, so set there what the server knows. */
struct http_request {
    struct spki_text method, authority, target;
    const struct http_field *fields;
    size_t field_count;
    bool has_body;
};

/* A service: its names in small letters, with ports that are not 443, and the time in seconds since 1970 before which nothing may be created, since
 * its nonce may be forgotten: the start of the process, or 0 if the nonces outlast it. The clock must be right then: if it was behind, and is put
 * forward later, a request that was proved before the start can be proved again. `take` gets `store`, keeps a nonce of a key for so many seconds
 * from `now`, and returns null, or the name of the refusal: "nonce-seen", "store-full", or "before-start" if the nonce may be forgotten. */
struct http_service {
    const struct spki_text *names;
    size_t name_count;
    long long start;
    const char *(*take)(void *store, struct spki_text key, struct spki_text nonce, long long now, long long seconds);
    void *store;
};

/* The key that has signed a request, in canonical form, the certificates that the request shows, as a question has them, and the nonce, which are
 * lent by the request, and the digest of the body by SHA-256 or SHA-512. Its length is 0 if none is signed: then there must be no body. Whoever reads
 * the body compares it. `moment` is when the request was proved, and `expires` when its signature ends, in seconds since 1970. */
struct http_proof {
    unsigned char key[VERIFY_MOST_OCTETS], digest[64];
    size_t key_length, digest_length;
    struct spki_text sequence, nonce;
    long long moment, expires;
};

/* Parses the head of a request of HTTP/1.1, a C string that ends with its empty line. The texts of `request` and `fields` are parts of `head`. In it
 * the method, the target and each name and value are ended by an octet 00. The authority is that of `Host`. False if it is no head of at most `most`
 * fields, each in one line, or has not exactly one `Host`, of printable ASCII and tabs. */
bool http_request_read(char *head, struct http_field *fields, size_t most, struct http_request *request);

/* Null if a request proves a key at a time, in seconds since 1970. Otherwise the name of the refusal in docs/SIGNATURES.md, or "memory". With null
 * the proof is set. Its nonce is not used up: a decision and http_proof_take must follow. */
SPKI_RESULT const char *http_request_check(const struct http_service *service, const struct http_request *request, long long now,
                                           struct http_proof *proof);

/* Uses up the nonce of a proof at a time, in seconds since 1970, which counts as that of the proof if it is earlier. NO PROOF COUNTS WITHOUT IT:
 * decide first, and call this for a yes alone, before you act. Returns null, or the name of the refusal: that of `take`, or "expired" if the
 * signature has ended since. */
SPKI_RESULT const char *http_proof_take(const struct http_service *service, const struct http_proof *proof, long long now);

/* The key of a proof, for a question: its octets are in the proof. */
static inline struct spki_proven_key http_proven_key(const struct http_proof *proof)
{
    return spki_assume_key((struct spki_text){proof->key, proof->key_length});
}

/* Nonces in memory, as hashes of eight octets: room for `most` in each of two sets. Null if `most` is 0 or too large, or there is no memory or no
 * randomness. `http_nonces_take` is for `take` of a service. One thread at a time may call. */
struct http_nonces;
struct http_nonces *http_nonces_open(size_t most);
const char *http_nonces_take(void *nonces, struct spki_text key, struct spki_text nonce, long long now, long long seconds);
void http_nonces_close(struct http_nonces *nonces);

#endif
