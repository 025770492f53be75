/* What cguard.c and misuse.c ask by: texts, guards and questions that are opened, and decisions that are compared. */
#ifndef CGUARD_H
#define CGUARD_H

#include "refusals.h"

#include <spki.h>
#include <stdio.h>
#include <string.h>

/* The exit status where a call does otherwise than spki.h says, and what `needed` is before a call, which must set it. */
enum { BROKEN = 99, UNSET = 12345 };

/* 2024-01-01 00:00:00 UTC */
static const int64_t moment = 1704067200;

/* Ends the program with the line `what`, which says what is wrong, unless a condition holds. */
static void expect(int holds, const char *what)
{
    if (holds)
        return;
    fprintf(stderr, "%s\n", what);
    exit(BROKEN);
}

/* A C string as a text, which borrows its octets. */
static struct spki_text text(const char *octets)
{
    return (struct spki_text){octets, strlen(octets)};
}

/* A question at `moment`, of a key that counts as proved. The three are texts. */
static struct spki_question question_of(const char *sequence, const char *key, const char *request)
{
    return (struct spki_question){.size = sizeof(struct spki_question), .sequence = text(sequence), .key = spki_assume_key(text(key)),
                                  .request = text(request), .seconds = &moment};
}

/* Whether octets are those of a C string. */
static int is_text(const void *octets, size_t length, const char *wanted)
{
    return length == strlen(wanted) && !memcmp(octets, wanted, length);
}

/* Opens a guard, whose list must be read: then the library sets `needed` to 0, whatever it was. The caller closes it. */
static spki_guard *open_guard(const char *list, enum spki_policy policy)
{
    spki_guard *guard = NULL;
    size_t needed = UNSET;
    expect(spki_guard_open(list, strlen(list), policy, NULL, &guard, NULL, 0, &needed) == SPKI_DONE && guard && !needed, "no guard is opened");
    return guard;
}

/* Opens a question, which must be read: then the library sets `needed` to 0, whatever it was. The caller closes it. */
static spki_asked *open_question(const spki_guard *guard, const struct spki_question *question)
{
    spki_asked *asked = NULL;
    size_t needed = UNSET;
    expect(spki_guard_ask(guard, question, &asked, NULL, 0, &needed) == SPKI_DONE && asked && !needed, "no question is opened");
    return asked;
}

/* Decides an opened question, and returns the status. spki_asked_granted must say the same, and with a yes spki_asked_possible must be true. */
static enum spki_status decide(const spki_asked *asked, unsigned char *buffer, size_t length, size_t *needed)
{
    const struct spki_decision decision = spki_asked_decide(asked, buffer, length, needed);
    const bool is_yes = decision.status == SPKI_YES;
    expect(is_yes == (decision.until != INT64_MIN), "an end is set for another status than yes, or missing");
    expect(spki_asked_granted(asked) == is_yes, "spki_asked_granted differs");
    expect(spki_asked_possible(asked) || !is_yes, "a yes that is not possible");
    return decision.status;
}

/* Opens a question, marks its first `marks` signatures as valid and decides it. The status and the line must be these. If the question cannot be
 * opened, they are those of opening it. */
static void expect_decision(const spki_guard *guard, const struct spki_question *question, size_t marks, enum spki_status status, const char *line)
{
    unsigned char buffer[64];
    spki_asked *asked = (spki_asked *)&until_refusal; /* (not null, so that it is seen that a call sets null) */
    size_t needed = UNSET;
    enum spki_status actual = spki_guard_ask(guard, question, &asked, buffer, sizeof buffer, &needed);
    expect((actual == SPKI_DONE) == (asked != NULL), "a question without a handle, or a handle without a question");
    for (size_t place = 0; asked && place < marks; place++)
        expect(spki_asked_mark(asked, place) == SPKI_DONE, "a signature that cannot be marked");
    if (asked)
        actual = decide(asked, buffer, sizeof buffer, &needed);
    spki_asked_close(asked);
    expect(actual == status && is_text(buffer, needed, line), line);
}

#endif
