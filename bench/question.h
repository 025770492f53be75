/* A guard and a question, read from a file that service.py, slowest.py or macaroons.py writes: the access list, the sequence, the key, the request
 * and the moment, each as its number of octets on a line and the octets. `open_and_mark` marks all signatures as valid. For the benches' programs. */
#ifndef QUESTION_H
#define QUESTION_H

#include <spki.h>
#include <stdio.h>
#include <stdlib.h>
#include <string.h>

enum { PARTS = 5 };

static const struct spki_limits highest = SPKI_HIGHEST_LIMITS;

/* What a program has of a file: the texts of the list and the question, both opened (`asked` is null until `open_and_mark` opened the question), and
 * a buffer of `room` octets for answers. */
struct held {
    struct spki_text list;
    struct spki_question question;
    spki_guard *guard;
    spki_asked *asked;
    unsigned char *buffer;
    size_t room;
};

/* Reads the next part of a file, into memory that is never freed. Ends the program with status 2 if it cannot. */
static struct spki_text read_text(FILE *file)
{
    size_t length;
    if (fscanf(file, "%zu", &length) != 1 || fgetc(file) != '\n')
        exit(2);
    /* (malloc(0) may return null) */
    unsigned char *octets = malloc(length + 1);
    if (!octets || fread(octets, 1, length, file) != length)
        exit(2);
    return (struct spki_text){octets, length};
}

/* Opens a guard of a list under the strict policy. Ends the program with status 3 if it is not opened, as for a list that is refused. */
static spki_guard *open_guard(struct spki_text list, const struct spki_limits *limits)
{
    spki_guard *guard;
    unsigned char line[64];
    size_t needed;
    if (spki_guard_open(list.octets, list.length, SPKI_STRICT, limits, &guard, line, sizeof line, &needed) != SPKI_DONE)
        exit(3);
    return guard;
}

/* Opens the question, lists the signatures and marks them, as a service does that finds all of them valid. If the question was open already, it is
 * closed before. Returns the status of opening it. */
static inline enum spki_status open_and_mark(struct held *held)
{
    struct spki_signed signature;
    size_t needed;
    spki_asked_close(held->asked);
    enum spki_status status = spki_guard_ask(held->guard, &held->question, &held->asked, held->buffer, held->room, &needed);
    for (size_t place = 0; spki_asked_signature(held->asked, place, &signature) == SPKI_DONE; place++)
        spki_asked_mark(held->asked, place);
    return status;
}

/* A call that answers an opened question: it writes the answer to a buffer of a size, sets how long the answer is, and returns the status. */
typedef enum spki_status answering(const spki_asked *, void *, size_t, size_t *);

/* The status of a call that answers the opened question. */
static inline enum spki_status answer_by(struct held *held, answering *call)
{
    size_t needed;
    return call(held->asked, held->buffer, held->room, &needed);
}

/* The call by which a question is decided. Returns the status alone. */
static inline enum spki_status decision_of(const spki_asked *asked, void *buffer, size_t length, size_t *needed)
{
    return spki_asked_decide(asked, buffer, length, needed).status;
}

/* Decides the opened question. Returns the status. */
static inline enum spki_status decide(struct held *held)
{
    return answer_by(held, decision_of);
}

/* Reads a file, and opens its guard. The question is not opened yet: see `open_and_mark`. Ends the program with status 2 if it cannot, or with 3 if
 * the list is refused. */
static struct held held_in(const char *path, const struct spki_limits *limits)
{
    struct held held = {.room = 64 << 20, .question.size = sizeof held.question};
    FILE *file = fopen(path, "rb");
    if (!file)
        exit(2);
    held.list = read_text(file);
    struct spki_text *parts[] = {&held.question.sequence, &held.question.key.text, &held.question.request, &held.question.moment};
    for (int part = 0; part < PARTS - 1; part++)
        *parts[part] = read_text(file);
    fclose(file);
    held.guard = open_guard(held.list, limits);
    held.buffer = malloc(held.room);
    if (!held.buffer)
        exit(2);
    return held;
}

#endif
