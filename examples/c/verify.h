/* A verifier of signatures in the forms of docs/FORMATS.md, "Keys and signatures of services": Ed25519, RSA by PKCS#1 v1.5 with SHA-256,
 * ECDSA with P-256 and SHA-256 or with P-384 and SHA-384. A service takes this file along with verify_gcrypt.c (libgcrypt) or verify_openssl.c
 * (OpenSSL's libcrypto).
 *
 *     if (verifies(&signature))
 *         spki_asked_mark(asked, place);
 *
 * Key and value must have exactly these forms: a key in another form is another key. Points and numbers are tested before a library gets them,
 * as docs/FORMATS.md, "What a verifier tests first", has it: libraries differ in what they take, and some end the process. So both files
 * accept the same. What they share is the last part of this file. */
#ifndef VERIFY_H
#define VERIFY_H

#include <spki.h>
#include <stdbool.h>
#include <string.h>

/* Whether a signature is valid: `value` is one of `message` by `key`. Key and value are canonical texts, and the message is any octets. False for an
 * empty message. Several threads may call at the same time. */
SPKI_RESULT bool verifies(const struct spki_signed *signature);

enum { VERIFY_HASH = 32 };

/* The SHA-256 hash of octets, such as the canonical text of a key. False if the library fails, and then there is no hash. */
SPKI_RESULT bool verify_hash(struct spki_text octets, unsigned char hash[VERIFY_HASH]);

/* The decision of a guard on a question. Only the status SPKI_YES grants. A question that is refused is a no. No signature is verified if the request
 * would be denied even if all were valid. The line of the decision is not used. */
SPKI_RESULT static inline struct spki_decision verify_decides(const spki_guard *guard, const struct spki_question *question)
{
    struct spki_decision decision = {SPKI_NO, INT64_MIN};
    struct spki_signed signature;
    spki_asked *asked;
    char line[64];
    if (spki_guard_ask(guard, question, &asked, NULL, 0, NULL) != SPKI_DONE)
        return decision;
    const size_t count = spki_asked_possible(asked) ? spki_asked_count(asked) : 0;
    for (size_t place = 0; place < count && spki_asked_signature(asked, place, &signature) == SPKI_DONE; place++)
        if (verifies(&signature))
            spki_asked_mark(asked, place);
    decision = spki_asked_decide(asked, line, sizeof line, NULL);
    spki_asked_close(asked);
    return decision;
}

/* ---- shared by the verifiers */

/* The octets of half a signature by Ed25519, also of its keys, and of a point of P-384, and the bits of the numbers of a key by RSA. */
enum { VERIFY_HALF = 32, VERIFY_MOST_POINT = 97, VERIFY_LEAST_BITS = 2048, VERIFY_MOST_BITS = 4096, VERIFY_MOST_EXPONENT_BITS = 31 };
/* A canonical text of more octets is no key and no value of a signature. */
enum { VERIFY_MOST_OCTETS = 4096 };

enum verify_kind { VERIFY_NONE, VERIFY_ED25519, VERIFY_RSA, VERIFY_P256, VERIFY_P384 };

/* A key and the value of a signature, taken apart. The key's strings are those of q, or of n and e. The value's are those of r and s, or of
 * s, for RSA and ECDSA without octets 00 in front. */
struct verify_parts {
    enum verify_kind kind;
    struct spki_text key[2], value[2];
};

/* Reads a string, LENGTH:OCTETS, and returns where it ends. Returns null if there is no whole one before `end`, or LENGTH has a 0 before other digits. */
static inline const unsigned char *verify_string(const unsigned char *at, const unsigned char *end, struct spki_text *string)
{
    const unsigned char *first = at;
    size_t length = 0;
    for (; at != end && *at >= '0' && *at <= '9' && length <= VERIFY_MOST_OCTETS; at++)
        length = 10 * length + (size_t)(*at - '0');
    if (at == first || (*first == '0' && at != first + 1) || at == end || *at++ != ':' || length > (size_t)(end - at))
        return NULL;
    *string = (struct spki_text){at, length};
    return at + length;
}

/* Whether a canonical text has at most VERIFY_MOST_OCTETS, and a form in which `%` is any string. Sets `strings[0]` and so on to these. Without the
 * form some may be set too. */
static inline bool verify_has_form(struct spki_text text, const char *form, struct spki_text *strings)
{
    const unsigned char *at = text.octets, *end = at + text.length;
    for (; at && text.length <= VERIFY_MOST_OCTETS && *form; form++)
        if (*form == '%')
            at = verify_string(at, end, strings++);
        else
            at = at != end && *at == (unsigned char)*form ? at + 1 : NULL;
    return at && !*form && at == end;
}

/* A number, big-endian, without octets 00 in front. */
static inline struct spki_text verify_trimmed(struct spki_text number)
{
    const unsigned char *octets = number.octets;
    for (; number.length && *octets == 0; octets++)
        number.length--;
    return (struct spki_text){octets, number.length};
}

/* Whether a number is below another, both big-endian. */
static inline bool verify_is_below(struct spki_text number, struct spki_text limit)
{
    number = verify_trimmed(number);
    limit = verify_trimmed(limit);
    if (number.length != limit.length || !limit.length)
        return number.length < limit.length;
    return memcmp(number.octets, limit.octets, limit.length) < 0;
}

/* Whether a number is below a limit of VERIFY_HALF octets. */
static inline bool verify_is_below_half(struct spki_text number, const char *limit)
{
    return verify_is_below(number, (struct spki_text){limit, VERIFY_HALF});
}

/* The count of bits of a number of a key by RSA. 0 unless the number is odd, and has one octet 00 in front if its first bit is set, and otherwise
 * none. */
static inline size_t verify_bits(struct spki_text number)
{
    struct spki_text trimmed = verify_trimmed(number);
    const unsigned char *octets = trimmed.octets;
    size_t bits = 8 * trimmed.length;
    if (!trimmed.length || number.length != trimmed.length + (octets[0] >> 7) || octets[trimmed.length - 1] % 2 == 0)
        return 0;
    for (unsigned char first = octets[0]; first < 0x80; first = (unsigned char)(first << 1))
        bits--;
    return bits;
}

/* Sets `reversed` to the octets of half a signature, or of a key, in the reverse order: Ed25519 has the least octet first. */
static inline void verify_reverse(struct spki_text half, unsigned char reversed[VERIFY_HALF])
{
    const unsigned char *octets = half.octets;
    for (size_t i = 0; i < VERIFY_HALF; i++)
        reversed[i] = octets[VERIFY_HALF - 1 - i];
}

/* Whether q can be a key of Ed25519, and r and s a signature. For a point of small order anyone can make signatures, and some points have a second
 * text: neither may be a key. So y is at least 2^192, below p - 1 (`last_y`), and none of the two y of order 8 (`eighth`). The number s is below the
 * order of the group. */
static inline bool verify_is_ed25519(struct spki_text q, struct spki_text r, struct spki_text s)
{
    static const char last_y[] = "\x7f\xff\xff\xff\xff\xff\xff\xff\xff\xff\xff\xff\xff\xff\xff\xff\xff\xff\xff\xff\xff\xff\xff\xff\xff\xff\xff\xff"
                                 "\xff\xff\xff\xec",
                      order[] = "\x10\0\0\0\0\0\0\0\0\0\0\0\0\0\0\0\x14\xde\xf9\xde\xa2\xf7\x9c\xd6\x58\x12\x63\x1a\x5c\xf5\xd3\xed",
                      eighth[] = "\x05\xfc\x53\x6d\x88\x02\x38\xb1\x39\x33\xc6\xd3\x05\xac\xdf\xd5\xf0\x98\xef\xf2\x89\xf4\xc3\x45"
                                 "\xb0\x27\xb2\xc2\x8f\x95\xe8\x26",
                      other_eighth[] = "\x7a\x03\xac\x92\x77\xfd\xc7\x4e\xc6\xcc\x39\x2c\xfa\x53\x20\x2a\x0f\x67\x10\x0d\x76\x0b\x3c\xba"
                                       "\x4f\xd8\x4d\x3d\x70\x6a\x17\xc7";
    unsigned char y[VERIFY_HALF], s_number[VERIFY_HALF];
    if (q.length != VERIFY_HALF || r.length != VERIFY_HALF || s.length != VERIFY_HALF)
        return false;
    verify_reverse(q, y);
    verify_reverse(s, s_number);
    /* (the highest bit of q says whether x is odd, and is no part of y. If the first 8 octets of y are 0, it is below 2^192) */
    y[0] &= 0x7f;
    return memcmp(y, (unsigned char[8]){0}, 8) != 0 && verify_is_below_half((struct spki_text){y, VERIFY_HALF}, last_y)
           && memcmp(y, eighth, VERIFY_HALF) != 0 && memcmp(y, other_eighth, VERIFY_HALF) != 0
           && verify_is_below_half((struct spki_text){s_number, VERIFY_HALF}, order);
}

/* Whether q can be a key of ECDSA, and r and s a signature, by a curve's prime p and order. An octet 04 and two coordinates are q. The coordinates
 * are below p, and r and s, which have no octets 00 in front, are from 1 to below the order. A library tests that q is on the curve. */
static inline bool verify_is_ecdsa(struct spki_text q, struct spki_text r, struct spki_text s, struct spki_text p, struct spki_text order)
{
    const unsigned char *octets = q.octets;
    return q.length == 1 + 2 * p.length && octets[0] == 4 && verify_is_below((struct spki_text){octets + 1, p.length}, p)
           && verify_is_below((struct spki_text){octets + 1 + p.length, p.length}, p) && r.length && s.length && verify_is_below(r, order)
           && verify_is_below(s, order);
}

/* Whether q can be a key of ECDSA with P-256, and r and s a signature. */
static inline bool verify_is_p256(struct spki_text q, struct spki_text r, struct spki_text s)
{
    static const char p[] = "\xff\xff\xff\xff\0\0\0\1\0\0\0\0\0\0\0\0\0\0\0\0\xff\xff\xff\xff\xff\xff\xff\xff\xff\xff\xff\xff",
                      order[] = "\xff\xff\xff\xff\0\0\0\0\xff\xff\xff\xff\xff\xff\xff\xff\xbc\xe6\xfa\xad\xa7\x17\x9e\x84\xf3\xb9\xca\xc2\xfc"
                                "\x63\x25\x51";
    return verify_is_ecdsa(q, r, s, (struct spki_text){p, sizeof p - 1}, (struct spki_text){order, sizeof order - 1});
}

/* Whether q can be a key of ECDSA with P-384, and r and s a signature. */
static inline bool verify_is_p384(struct spki_text q, struct spki_text r, struct spki_text s)
{
    static const char p[] = "\xff\xff\xff\xff\xff\xff\xff\xff\xff\xff\xff\xff\xff\xff\xff\xff\xff\xff\xff\xff\xff\xff\xff\xff\xff\xff\xff\xff"
                            "\xff\xff\xff\xfe\xff\xff\xff\xff\0\0\0\0\0\0\0\0\xff\xff\xff\xff",
                      order[] = "\xff\xff\xff\xff\xff\xff\xff\xff\xff\xff\xff\xff\xff\xff\xff\xff\xff\xff\xff\xff\xff\xff\xff\xff\xc7\x63\x4d\x81"
                                "\xf4\x37\x2d\xdf\x58\x1a\x0d\xb2\x48\xb0\xa7\x7a\xec\xec\x19\x6a\xcc\xc5\x29\x73";
    return verify_is_ecdsa(q, r, s, (struct spki_text){p, sizeof p - 1}, (struct spki_text){order, sizeof order - 1});
}

/* Whether n and e can be a key of RSA, and s a signature. n and e are odd and within the limits, where e is at least 3, which has 2 bits; and s,
 * which has no octets 00 in front, is from 1 to below n. */
static inline bool verify_is_rsa(struct spki_text n, struct spki_text e, struct spki_text s)
{
    size_t bits = verify_bits(n), exponent = verify_bits(e);
    return bits >= VERIFY_LEAST_BITS && bits <= VERIFY_MOST_BITS && exponent >= 2 && exponent <= VERIFY_MOST_EXPONENT_BITS && s.length
           && verify_is_below(s, n);
}

/* Takes a key and the value of a signature apart, and tests them. The kind is VERIFY_NONE if they fail, or are not of the same kind. */
static inline struct verify_parts verify_parts_of(struct spki_text key, struct spki_text value)
{
    struct verify_parts parts = {.kind = VERIFY_NONE};
    struct spki_text *of_key = parts.key, *of_value = parts.value;
    if (verify_has_form(key, "(10:public-key(3:ecc(5:curve7:Ed25519)(5:flags5:eddsa)(1:q%)))", of_key)
        && verify_has_form(value, "(7:sig-val(5:eddsa(1:r%)(1:s%)))", of_value)) {
        if (verify_is_ed25519(of_key[0], of_value[0], of_value[1]))
            parts.kind = VERIFY_ED25519;
    } else if (verify_has_form(value, "(7:sig-val(5:ecdsa(1:r%)(1:s%)))", of_value)) {
        of_value[0] = verify_trimmed(of_value[0]);
        of_value[1] = verify_trimmed(of_value[1]);
        if (verify_has_form(key, "(10:public-key(3:ecc(5:curve10:NIST P-256)(1:q%)))", of_key) && verify_is_p256(of_key[0], of_value[0], of_value[1]))
            parts.kind = VERIFY_P256;
        else if (verify_has_form(key, "(10:public-key(3:ecc(5:curve10:NIST P-384)(1:q%)))", of_key)
                 && verify_is_p384(of_key[0], of_value[0], of_value[1]))
            parts.kind = VERIFY_P384;
    } else if (verify_has_form(key, "(10:public-key(3:rsa(1:n%)(1:e%)))", of_key) && verify_has_form(value, "(7:sig-val(3:rsa(1:s%)))", of_value)) {
        of_value[0] = verify_trimmed(of_value[0]);
        if (verify_is_rsa(of_key[0], of_key[1], of_value[0]))
            parts.kind = VERIFY_RSA;
    }
    return parts;
}

#endif
