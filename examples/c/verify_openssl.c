/* `verifies` and `verify_hash` of verify.h by OpenSSL's libcrypto, from OpenSSL 3.0 on (Debian: libssl-dev).
 *
 *     cc -std=c11 -Wall -Wextra -c verify_openssl.c $(pkg-config --cflags spki libcrypto)
 */
#include "verify.h"

#include <openssl/core_names.h>
#include <openssl/ecdsa.h>
#include <openssl/evp.h>
#include <openssl/param_build.h>
#include <string.h>

/* The octets of the largest signature, that of RSA. One by ECDSA in DER has at most 104: two numbers of 51 octets at most, in a list. */
enum { MOST_SIGNATURE = VERIFY_MOST_BITS / 8 };

/* OpenSSL's public key of a kind, such as "RSA", by its parameters. Null if they are null or no key, or if memory ran out. */
static EVP_PKEY *key_from(const char *kind, OSSL_PARAM *parameters)
{
    EVP_PKEY *key = NULL;
    EVP_PKEY_CTX *context = EVP_PKEY_CTX_new_from_name(NULL, kind, NULL);
    if (!context || !parameters || EVP_PKEY_fromdata_init(context) != 1
        || EVP_PKEY_fromdata(context, &key, EVP_PKEY_PUBLIC_KEY, parameters) != 1)
        key = NULL;
    EVP_PKEY_CTX_free(context);
    return key;
}

/* OpenSSL's key of a modulus and an exponent, which are big-endian numbers. Null if they are no key, or if memory ran out. */
static EVP_PKEY *rsa_key(struct spki_text modulus, struct spki_text exponent)
{
    BIGNUM *n = BN_bin2bn(modulus.octets, (int)modulus.length, NULL), *e = BN_bin2bn(exponent.octets, (int)exponent.length, NULL);
    OSSL_PARAM_BLD *builder = OSSL_PARAM_BLD_new();
    OSSL_PARAM *parameters = NULL;
    if (n && e && builder && OSSL_PARAM_BLD_push_BN(builder, OSSL_PKEY_PARAM_RSA_N, n)
        && OSSL_PARAM_BLD_push_BN(builder, OSSL_PKEY_PARAM_RSA_E, e))
        parameters = OSSL_PARAM_BLD_to_param(builder);
    EVP_PKEY *key = key_from("RSA", parameters);
    OSSL_PARAM_free(parameters);
    OSSL_PARAM_BLD_free(builder);
    BN_free(e);
    BN_free(n);
    return key;
}

/* OpenSSL's key of a point of P-256 or P-384, by the kind. Null if it is no point of the curve, or if memory ran out. */
static EVP_PKEY *ecdsa_key(enum verify_kind kind, struct spki_text point)
{
    /* (copies, because OSSL_PARAM takes no constants) */
    char p256[] = "prime256v1", p384[] = "secp384r1";
    unsigned char octets[VERIFY_MOST_POINT];
    memcpy(octets, point.octets, point.length);
    OSSL_PARAM parameters[] = {OSSL_PARAM_construct_utf8_string(OSSL_PKEY_PARAM_GROUP_NAME, kind == VERIFY_P256 ? p256 : p384, 0),
                               OSSL_PARAM_construct_octet_string(OSSL_PKEY_PARAM_PUB_KEY, octets, point.length),
                               OSSL_PARAM_construct_end()};
    return key_from("EC", parameters);
}

/* OpenSSL's key of a key that verify_parts_of has taken apart. Null if it is no key, or if memory ran out. */
static EVP_PKEY *key_of(const struct verify_parts *parts)
{
    if (parts->kind == VERIFY_ED25519)
        return EVP_PKEY_new_raw_public_key(EVP_PKEY_ED25519, NULL, parts->key[0].octets, parts->key[0].length);
    return parts->kind == VERIFY_RSA ? rsa_key(parts->key[0], parts->key[1]) : ecdsa_key(parts->kind, parts->key[0]);
}

/* Writes r and s, the big-endian numbers of a signature by ECDSA, to `octets` in DER. Returns the count of the octets, or 0 if memory ran out. */
static size_t ecdsa_signature(struct spki_text r, struct spki_text s, unsigned char *octets)
{
    ECDSA_SIG *pair = ECDSA_SIG_new();
    BIGNUM *r_number = BN_bin2bn(r.octets, (int)r.length, NULL), *s_number = BN_bin2bn(s.octets, (int)s.length, NULL);
    int length = 0;
    /* (if ECDSA_SIG_set0 succeeds, the pair owns the numbers and frees them) */
    if (pair && r_number && s_number && ECDSA_SIG_set0(pair, r_number, s_number) == 1)
        length = i2d_ECDSA_SIG(pair, &octets);
    else {
        BN_free(r_number);
        BN_free(s_number);
    }
    ECDSA_SIG_free(pair);
    return length > 0 ? (size_t)length : 0;
}

/* Writes a signature as OpenSSL has it: both halves of one by Ed25519, the number of one by RSA with all octets of the modulus, both numbers
 * of one by ECDSA. `size` is the octets of the modulus, and not used for the other kinds. Returns the count of the octets, or 0 if that fails. */
static size_t signature_of(const struct verify_parts *parts, size_t size, unsigned char octets[MOST_SIGNATURE])
{
    struct spki_text r = parts->value[0], s = parts->value[1], number = parts->value[0];
    if (parts->kind == VERIFY_P256 || parts->kind == VERIFY_P384)
        return ecdsa_signature(r, s, octets);
    if (parts->kind == VERIFY_ED25519) {
        memcpy(octets, r.octets, VERIFY_HALF);
        memcpy(octets + VERIFY_HALF, s.octets, VERIFY_HALF);
        return 2 * VERIFY_HALF;
    }
    if (size > MOST_SIGNATURE || number.length > size)
        return 0;
    memset(octets, 0, size - number.length);
    memcpy(octets + size - number.length, number.octets, number.length);
    return size;
}

/* Writes the SHA-256 hash of octets. False if that fails. */
bool verify_hash(struct spki_text octets, unsigned char hash[VERIFY_HASH])
{
    return EVP_Digest(octets.octets, octets.length, hash, NULL, EVP_sha256(), NULL) == 1;
}

/* Whether a signature is valid: `value` is one of `message` by `key`. False for an empty message, as docs/FORMATS.md has it, and if
 * memory ran out. */
bool verifies(const struct spki_signed *signature)
{
    unsigned char octets[MOST_SIGNATURE];
    struct spki_text message = signature->message;
    struct verify_parts parts = verify_parts_of(signature->key, signature->value);
    EVP_PKEY *key = parts.kind == VERIFY_NONE || message.length == 0 ? NULL : key_of(&parts);
    /* (Ed25519 has no digest to choose) */
    const EVP_MD *digest = parts.kind == VERIFY_ED25519 ? NULL : parts.kind == VERIFY_P384 ? EVP_sha384() : EVP_sha256();
    size_t length = key ? signature_of(&parts, (size_t)EVP_PKEY_get_size(key), octets) : 0;
    EVP_MD_CTX *context = EVP_MD_CTX_new();
    bool is_valid = length > 0 && context && EVP_DigestVerifyInit(context, NULL, digest, NULL, key) == 1
                    && EVP_DigestVerify(context, octets, length, message.octets, message.length) == 1;
    EVP_MD_CTX_free(context);
    EVP_PKEY_free(key);
    return is_valid;
}
