/* Makes the parts of a question from fuzzed octets. Most are valid: keys, tags, windows of time, and certificates with the digests that their
 * signatures need. Some have an octet changed, and some lack their end. `below(in, N)` takes a number below N from the input, and `mostly(in, U, N)`
 * is U in three of four cases. Functions `put_..` add to a text in canonical form. */
#ifndef PIECES_H
#define PIECES_H

#include <openssl/sha.h>
#include <stdint.h>
#include <stdio.h>
#include <string.h>

/* The most octets of a text, the room for strings of a request (whose usual limit is 64), the number of usual keys, the most lists in one another in
 * a tag, a number over the most members of one such list, and the algorithms of put_hash. */
enum { MOST_OCTETS = 32768, MOST_WORDS = 66, KEYS = 5, MOST_DEPTH = 3, MEMBERS = 4, BY_SHA256 = 0, BY_SHA512, BY_SHA1 };

/* What is left of the input. Behind its end all octets are 0. */
struct input {
    const uint8_t *at;
    size_t left;
};

/* A text, which is made in canonical form. What has no room is left out. */
struct text {
    size_t length;
    unsigned char octets[MOST_OCTETS];
    unsigned lacks_room; /* whether `put` has left out something */
};

/* The parts of a question. `is_worded`: a call gets the request as strings, not as a text. `is_in_seconds`: it gets the moment in seconds. */
struct parts {
    struct text list, sequence, key, request, moment, words[MOST_WORDS];
    size_t word_count;
    int64_t seconds;
    unsigned is_worded, is_in_seconds;
};

/* The parts of the question that is made now. put_requested makes tags of its request. */
static const struct parts *question_parts;

/* Takes the next octet of the input, and returns a number below `count` by it; 0 behind the end of the input. */
static unsigned below(struct input *in, unsigned count)
{
    if (!in->left)
        return 0;
    in->left--;
    return *in->at++ % count;
}

/* Returns `usual` in three of four cases, and behind the end of the input; otherwise a number below `count` by the input. */
static unsigned mostly(struct input *in, unsigned usual, unsigned count)
{
    return below(in, 4) == 3 ? below(in, count) : usual;
}

/* Adds octets as they are to a text, or nothing if they have no room, and notes that. */
static void put(struct text *to, const void *octets, size_t length)
{
    to->lacks_room |= length > sizeof to->octets - to->length;
    if (length > sizeof to->octets - to->length)
        return;
    memcpy(to->octets + to->length, octets, length);
    to->length += length;
}

/* Adds a string of these octets in canonical form, LENGTH:OCTETS. */
static void put_string(struct text *to, const void *octets, size_t length)
{
    char head[24];
    int digits = snprintf(head, sizeof head, "%zu:", length);
    put(to, head, (size_t)digits);
    put(to, octets, length);
}

/* Adds a C string as a string in canonical form. */
static void put_word(struct text *to, const char *octets)
{
    put_string(to, octets, strlen(octets));
}

/* Begins a list with this head. `end_list` ends it. */
static void begin_list(struct text *to, const char *head)
{
    put(to, "(", 1);
    put_word(to, head);
}

/* Ends the list that was begun last. */
static void end_list(struct text *to)
{
    put(to, ")", 1);
}

/* Adds the key with this number: a key of one letter, `a` for 0. */
static void put_key(struct text *to, unsigned which)
{
    const char name[] = {(char)('a' + which), 0};
    begin_list(to, "public-key");
    begin_list(to, "test");
    put_word(to, name);
    end_list(to);
    end_list(to);
}

/* Adds the hash of a text, `(hash ..)`, by an algorithm. */
static void put_hash(struct text *to, const struct text *of, unsigned algorithm)
{
    static const char *const names[] = {"sha256", "sha512", "sha1"};
    static const size_t lengths[] = {32, 64, 20};
    unsigned char digest[64];
    begin_list(to, "hash");
    put_word(to, names[algorithm]);
    if (algorithm == BY_SHA256)
        SHA256(of->octets, of->length, digest);
    else if (algorithm == BY_SHA512)
        SHA512(of->octets, of->length, digest);
    else
        SHA1(of->octets, of->length, digest);
    put_string(to, digest, lengths[algorithm]);
    end_list(to);
}

/* Adds the key with this number, or in one of three cases its hash: mostly by SHA-256. */
static void put_principal(struct input *in, struct text *to, unsigned which)
{
    struct text key = {0};
    if (below(in, 3) < 2) {
        put_key(to, which);
        return;
    }
    put_key(&key, which);
    put_hash(to, &key, mostly(in, BY_SHA256, 3));
}

/* The strings of requests, tags and names. */
static const char *const strings[] = {"ftp", "read", "write", "a", "", "10", "9", "/team/", "/team/x", "2024-01-01_00:00:00"};
enum { STRINGS = sizeof strings / sizeof *strings };

/* Adds the field with the subject of a certificate: the principal of the key with this number, or by chance a name of it with up to two strings. */
static void put_subject(struct input *in, struct text *to, unsigned which)
{
    unsigned names = mostly(in, 0, 4);
    begin_list(to, "subject");
    if (names)
        begin_list(to, "name");
    put_principal(in, to, which);
    for (unsigned name = 1; name < names; name++)
        put_word(to, strings[below(in, 4)]);
    if (names)
        end_list(to);
    end_list(to);
}

/* Adds a tag `(* range ..)` with up to two limits, first the lower and then the upper one. Not each ordering is one that the library reads. */
static void put_range(struct input *in, struct text *to)
{
    static const char *const orders[] = {"alpha", "numeric", "time", "binary", "date"};
    static const char *const bounds[] = {"g", "ge", "l", "le"};
    unsigned limits = below(in, 3);
    begin_list(to, "*");
    put_word(to, "range");
    put_word(to, orders[below(in, 5)]);
    for (unsigned limit = 0; limit < limits; limit++) {
        put_word(to, bounds[limit * 2 + below(in, 2)]);
        put_word(to, strings[below(in, STRINGS)]);
    }
    end_list(to);
}

/* Adds a tag `(* prefix ..)`. */
static void put_prefix(struct input *in, struct text *to)
{
    begin_list(to, "*");
    put_word(to, "prefix");
    put_word(to, strings[below(in, STRINGS)]);
    end_list(to);
}

/* Adds a tag that contains the request: the list of some of its strings, from the first on, or its one string. Of none it is `()`, no tag. */
static void put_requested(struct input *in, struct text *to)
{
    size_t count = question_parts->word_count > 1 ? 1 + below(in, 64) % question_parts->word_count : question_parts->word_count;
    if (question_parts->word_count != 1)
        put(to, "(", 1);
    for (size_t place = 0; place < count; place++)
        put_string(to, question_parts->words[place].octets, question_parts->words[place].length);
    if (question_parts->word_count != 1)
        end_list(to);
}

/* Adds a tag, with up to `depth` lists and sets in one another. At 0 it has none of its own, but may be the list that is the request. */
static void put_tag(struct input *in, struct text *to, unsigned depth)
{
    static void (*const kinds[])(struct input *, struct text *) = {put_requested, put_prefix, put_range};
    unsigned kind = below(in, depth ? 7 : 5), members = below(in, MEMBERS); /* (the kinds 5 and 6 are sets and lists) */
    if (kind < 3) {
        kinds[kind](in, to);
    } else if (kind == 3) {
        put(to, "(1:*)", 5);
    } else if (kind == 4) {
        put_word(to, strings[below(in, STRINGS)]);
    } else {
        begin_list(to, kind == 5 ? "*" : strings[below(in, 3)]);
        if (kind == 5)
            put_word(to, "set");
        while (members--)
            put_tag(in, to, depth - 1);
        end_list(to);
    }
}

/* Moments, each as seconds since 1970 and as a date: that of most questions, a second earlier, an early one and a late one. */
static const struct {
    int64_t seconds;
    const char *date;
} moments[] = {{1704067200, "2024-01-01_00:00:00"}, {1704067199, "2023-12-31_23:59:59"}, {951782400, "2000-02-29_00:00:00"},
               {4102444800, "2100-01-01_00:00:00"}};
enum { EARLY = 2, LATE = 3, MOMENTS = sizeof moments / sizeof *moments };

/* Adds a limit of a window: mostly the moment at the place `usual` of `moments`. */
static void put_limit(struct input *in, struct text *to, const char *head, unsigned usual)
{
    begin_list(to, head);
    put_word(to, moments[mostly(in, usual, MOMENTS)].date);
    end_list(to);
}

/* Adds what an entry and a certificate have in common: mostly the right to delegate, a tag, and in some cases the limits of a window. */
static void put_fields(struct input *in, struct text *to)
{
    if (mostly(in, 1, 2)) {
        begin_list(to, "propagate");
        end_list(to);
    }
    begin_list(to, "tag");
    put_tag(in, to, below(in, MOST_DEPTH + 1));
    end_list(to);
    if (below(in, 4) == 3)
        put_limit(in, to, "not-before", EARLY);
    if (below(in, 4) == 3)
        put_limit(in, to, "not-after", LATE);
}

/* Adds a certificate and its signature. Mostly the issuer is the key with the number `place`, and the subject the next one, so that the certificates
 * are a chain. The signature is mostly right: a hash of this certificate, by its issuer. */
static void put_certificate(struct input *in, struct text *to, unsigned place)
{
    static struct text message;
    unsigned issuer = mostly(in, place, KEYS);
    message.length = 0;
    begin_list(&message, "cert");
    begin_list(&message, "issuer");
    put_principal(in, &message, issuer);
    end_list(&message);
    put_subject(in, &message, mostly(in, place + 1, KEYS));
    put_fields(in, &message);
    end_list(&message);
    put(to, message.octets, message.length);
    begin_list(to, "signature");
    put_hash(to, &message, mostly(in, BY_SHA256, 2)); /* (a digest by SHA-1 is left out) */
    put_principal(in, to, mostly(in, issuer, KEYS));
    if (below(in, 4) < 3)
        put_word(to, "sig");
    else
        put(to, "(3:sig1:x)", 10);
    end_list(to);
}

/* Adds an entry of the access list, mostly for the key with the number 0, with which the chain begins, and else for a name, mostly of that key. */
static void put_entry(struct input *in, struct text *to)
{
    begin_list(to, "entry");
    if (mostly(in, 1, 2)) {
        put_principal(in, to, mostly(in, 0, KEYS));
    } else {
        begin_list(to, "name");
        put_principal(in, to, mostly(in, 0, KEYS));
        put_word(to, strings[below(in, 4)]);
        end_list(to);
    }
    put_fields(in, to);
    end_list(to);
}

/* In one of sixteen cases changes an octet of a text, or cuts off its end: not if the input is used up, which would be the same each time. */
static void spoil(struct input *in, struct text *text)
{
    unsigned how = below(in, 32), high = below(in, 256), at = high * 256u + below(in, 256);
    if (!text->length || how < 30 || !in->left)
        return;
    at %= text->length;
    if (how == 30)
        text->octets[at] = (unsigned char)below(in, 256);
    else
        text->length = at;
}

/* Makes the request, as strings and as the text that they mean: the list of them, or the string if there is one. Some strings end with octets that
 * need care in a text, such as 00 and parentheses. */
static void make_request(struct input *in, struct parts *parts)
{
    unsigned count = mostly(in, 2, MOST_WORDS);
    parts->is_worded = below(in, 2);
    parts->word_count = count;
    for (unsigned place = 0; place < count; place++) {
        const char *string = strings[below(in, STRINGS)];
        parts->words[place].length = 0;
        put(&parts->words[place], string, strlen(string));
        put(&parts->words[place], "\0)(", mostly(in, 0, 4));
    }
    parts->request.length = 0;
    if (count != 1)
        put(&parts->request, "(", 1);
    for (unsigned place = 0; place < count; place++)
        put_string(&parts->request, parts->words[place].octets, parts->words[place].length);
    if (count != 1)
        end_list(&parts->request);
}

/* Makes all parts of a question. There are mostly up to 3 certificates, at most 17, from key 0 on. The key that asks is mostly the last subject. */
static void make_parts(struct input *in, struct parts *parts)
{
    unsigned certificates = mostly(in, below(in, 4), 18), entries = 1 + below(in, 4), moment = mostly(in, 0, MOMENTS);
    question_parts = parts;
    make_request(in, parts);
    parts->list.length = parts->sequence.length = parts->key.length = parts->moment.length = 0;
    begin_list(&parts->list, "acl");
    while (entries--)
        put_entry(in, &parts->list);
    end_list(&parts->list);
    begin_list(&parts->sequence, "sequence");
    for (unsigned key = 0; key < KEYS && !below(in, 3); key++)
        put_key(&parts->sequence, key);
    for (unsigned place = 0; place < certificates; place++)
        put_certificate(in, &parts->sequence, place);
    end_list(&parts->sequence);
    put_key(&parts->key, mostly(in, certificates, KEYS));
    put_word(&parts->moment, moments[moment].date);
    parts->seconds = moments[moment].seconds;
    parts->is_in_seconds = below(in, 2);
}

#endif
