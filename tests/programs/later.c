/* Gives spki.c structures of other headers: with up to MORE fields more than in 0.2.0, and with one less. LATER is the header that spki.c is
 * compiled with: 0 for spki.h, 1 for one whose structures have a field `later` at their ends. What the proved library would be given is kept here.
 * Prints the line of what is wrong, and ends with 1 then. */
#include "spki.c"

#include <stdio.h>
#include <stdlib.h>

static struct spki_limits limits_seen;
static struct parts parts_seen;
static size_t limits_count; /* (of the structures of limits that spki.c passes on: always 1) */

/* In place of the proved library's function: keeps the limits that spki.c has read, and opens a guard. */
uint32_t spki_c_guard_open(struct spki_text list, uint32_t policy, const struct spki_limits *limits, size_t count, struct handle *guard,
                           BUFFER_PARAMS)
{
    (void)list, (void)policy, (void)buffer, (void)buffer_length, (void)needed;
    limits_seen = *limits;
    limits_count = count;
    guard->at = guard;
    return SPKI_DONE;
}

/* In place of the proved library's function: keeps the parts of the question that spki.c has read, and opens a question. */
uint32_t spki_c_guard_ask(struct handle *guard, struct parts parts, const struct spki_text *words, size_t word_count, const int64_t *seconds,
                          size_t count, struct handle *asked, BUFFER_PARAMS)
{
    (void)guard, (void)words, (void)word_count, (void)seconds, (void)count, (void)buffer, (void)buffer_length, (void)needed;
    parts_seen = parts;
    asked->at = asked;
    return SPKI_DONE;
}

/* The other functions of the proved library that spki.c passes on to. They do nothing, and are here so that this program links: main does not call
 * them. A new one belongs here too, unless its call reads a caller's structure that has a size: then it keeps what it is given, as those above. */
uint32_t spki_c_answer(uint32_t c, struct spki_text t, void *b, size_t l, size_t *n) { return (void)c, (void)t, (void)b, (void)l, (void)n, 0; }
uint32_t spki_c_check_accepted(struct spki_text t, struct spki_text r, void *b, size_t l, size_t *n)
{
    return (void)t, (void)r, (void)b, (void)l, (void)n, 0;
}
void spki_c_close(bool is, struct handle v, struct handle *b) { (void)is, (void)v, (void)b; }
size_t spki_c_guard_entries(struct handle *g) { return (void)g, 0; }
size_t spki_c_asked_count(struct handle *a) { return (void)a, 0; }
uint32_t spki_c_asked_signature(struct handle *a, size_t p, struct texts *t) { return (void)a, (void)p, (void)t, 0; }
uint32_t spki_c_asked_mark(struct handle a, size_t p, struct handle *b) { return (void)a, (void)p, (void)b, 0; }
bool spki_c_asked_granted(struct handle *a) { return (void)a, false; }
bool spki_c_asked_possible(struct handle *a) { return (void)a, false; }
uint32_t spki_c_asked_answer(uint32_t w, struct handle *a, int64_t *u, void *b, size_t l, size_t *n)
{
    return (void)w, (void)a, (void)u, (void)b, (void)l, (void)n, 0;
}
uint32_t spki_c_string(struct spki_text t, const size_t *p, size_t d, size_t *a, size_t *l)
{
    return (void)t, (void)p, (void)d, (void)a, (void)l, 0;
}

#define CHECK(what) ((what) ? (void)0 : (printf("line %d: %s\n", __LINE__, #what), exit(1)))

/* The structures without a size never change. */
_Static_assert(sizeof(struct spki_text) == 2 * sizeof(size_t) && sizeof(struct spki_signed) == 4 * sizeof(struct spki_text)
                   && sizeof(struct spki_proven_key) == sizeof(struct spki_text), "a structure that has no size has another one");

/* The octets of the limits and of a question in 0.2.0, which each library of this interface must read, and the most fields that main adds. */
enum { LIMITS = 7 * sizeof(size_t), QUESTION = 12 * sizeof(size_t), MORE = 4 };

/* Opens a guard by spki.c with limits that are an array of numbers, of which the first is their size. */
static enum spki_status open_guard(size_t *limits)
{
    spki_guard *guard;
    return spki_guard_open("(acl)", 5, SPKI_STRICT, (const struct spki_limits *)(void *)limits, &guard, NULL, 0, NULL);
}

/* Asks by spki.c a question that is an array of numbers, of which the first is its size. */
static enum spki_status ask(size_t *question)
{
    static size_t guard;
    spki_asked *asked;
    return spki_guard_ask((const spki_guard *)(void *)&guard, (const struct spki_question *)(void *)question, &asked, NULL, 0, NULL);
}

int main(void)
{
    /* (the fields of spki.h in order: size, octets, certificates, words ..; size, sequence, key ..) */
    size_t limits[7 + MORE] = {0, 70000, 0, 5}, question[12 + MORE] = {0, (size_t)"(sequence)", 10, (size_t)"key", 3};
    for (size_t more = 0; more <= MORE; more++) {
        size_t unknown = more > LATER ? more - LATER : 0; /* fields that spki.c does not know: it must refuse them unless they are 0 */
        limits[0] = LIMITS + more * sizeof more;
        question[0] = QUESTION + more * sizeof more;
        CHECK(open_guard(limits) == SPKI_DONE && limits_seen.octets == 70000 && !limits_seen.certificates && limits_seen.words == 5);
        CHECK(limits_count == 1);
        CHECK(ask(question) == SPKI_DONE && parts_seen.sequence.length == 10 && parts_seen.key.length == 3 && !parts_seen.is_worded);
#if LATER
        CHECK(limits_seen.later == 0);
#endif
        for (size_t at = 0; at < unknown; at++) {
            limits[7 + LATER + at] = question[12 + LATER + at] = (size_t)1 << 63;
            CHECK(open_guard(limits) == SPKI_MISUSED && ask(question) == SPKI_MISUSED);
            limits[7 + LATER + at] = question[12 + LATER + at] = 0;
        }
    }
    /* (too small, no multiple of a field, and over the 4,096 octets that spki.c takes for a structure) */
    const size_t wrong[] = {0, 1, sizeof(size_t), LIMITS - sizeof(size_t), LIMITS - 1, LIMITS + 1, 4104, SIZE_MAX, SIZE_MAX - 7};
    for (size_t place = 0; place < sizeof wrong / sizeof *wrong; place++) {
        limits[0] = wrong[place];
        CHECK(open_guard(limits) == SPKI_MISUSED);
    }
    question[0] = QUESTION - sizeof(size_t);
    CHECK(ask(question) == SPKI_MISUSED && ask(NULL) == SPKI_MISUSED);
    CHECK(open_guard(NULL) == SPKI_DONE && !limits_seen.octets && limits_count == 1);
    return 0;
}
