/* The calls of spki.h that take octets as a `void *` or in a structure. Go passes each part by itself, and octets as a `char *`. Of a `void *`, also
 * in a structure, cgo examines the whole object that it points into, and panics if that has a pointer to memory of Go's. */
#include <spki.h>
#include <stdlib.h>

/* The list of at most LIBRARY_FEW_WORDS strings of a request needs no allocation. Each decision and each refusal fits in LIBRARY_LINE octets. */
enum { LIBRARY_FEW_WORDS = 64, LIBRARY_LINE = 128 };

/* What a call returns. It is returned as a value, since Go would have to allocate what C writes to through a pointer. `guard` or `asked` is what was
 * opened, `count` the number of its signatures, `until` the last second of a yes. `length` is the length of the line, which is in `line` if it is at
 * most LIBRARY_LINE. */
struct library_result {
    enum spki_status status;
    spki_guard *guard;
    spki_asked *asked;
    size_t count, length;
    int64_t until;
    char line[LIBRARY_LINE];
};

/* What a question has besides its texts. A call that takes one also takes these: `sequence`, and `joined`, which has the key, the request, the moment
 * and the strings of the request, one after the other. `lengths` has the length of each text in `joined`. `by_words` is 1 if the request is given by
 * its strings, and `by_seconds` is 1 if the moment is `seconds` since 1970. The structure has no pointer: at each call Go examines all memory behind
 * the pointers of a structure. */
struct library_question {
    size_t sequence_length, word_count;
    int by_words, by_seconds;
    int64_t seconds;
};

/* Opens a guard of the access list `list`. A limit of 0 is the usual one. `line` is that of a refusal, if there is one. */
static inline struct library_result library_open(const char *list, size_t length, enum spki_policy policy, struct spki_limits limits)
{
    struct library_result result = {0};
    limits.size = sizeof limits;
    result.status = spki_guard_open(list, length, policy, &limits, &result.guard, result.line, sizeof result.line, &result.length);
    return result;
}

/* Writes a text in another form to `buffer`, as spki_answer does, by the command SPKI_CANONICAL, SPKI_ADVANCED or SPKI_TRANSPORT. */
static inline enum spki_status library_convert(enum spki_command command, const char *text, size_t length, char *buffer, size_t room, size_t *needed)
{
    return spki_answer(command, text, length, buffer, room, needed).status;
}

/* Takes the first text off `*joined`, whose length is the first of `*lengths`, and sets both pointers to the next text. An empty text gets a null
 * pointer, as one that is not given. */
static inline struct spki_text library_next_text(const char **joined, const size_t **lengths)
{
    const size_t length = **lengths;
    const struct spki_text text = {length > 0 ? *joined : NULL, length};
    *joined += length;
    *lengths += 1;
    return text;
}

/* Opens a question, and counts its signatures. The caller closes `asked`. `line` is that of a refusal, if there is one. SPKI_NO_MEMORY if the list of
 * the strings cannot be allocated. */
static inline struct library_result library_ask(const spki_guard *guard, struct library_question parts, const char *sequence, const char *joined,
                                                const size_t *lengths)
{
    struct library_result result = {.status = SPKI_NO_MEMORY};
    const size_t count = parts.word_count;
    struct spki_text few[LIBRARY_FEW_WORDS], *words = count <= LIBRARY_FEW_WORDS ? few : calloc(count, sizeof *words);
    if (!words)
        return result;
    const struct spki_text key = library_next_text(&joined, &lengths);
    const struct spki_text request = library_next_text(&joined, &lengths);
    const struct spki_text moment = library_next_text(&joined, &lengths);
    for (size_t place = 0; place < count; place++)
        words[place] = library_next_text(&joined, &lengths);
    const struct spki_question question = {
        .size = sizeof question, .sequence = {sequence, parts.sequence_length}, .key = spki_assume_key(key), .request = request,
        .words = parts.by_words ? words : NULL, .word_count = count, .moment = moment, .seconds = parts.by_seconds ? &parts.seconds : NULL};
    result.status = spki_guard_ask(guard, &question, &result.asked, result.line, sizeof result.line, &result.length);
    result.count = spki_asked_count(result.asked);
    if (words != few)
        free(words);
    return result;
}

/* Decides a question by its marks: SPKI_YES with the line `yes entry N`, SPKI_NO with `no`, or SPKI_REFUSED with `refused Memory`. */
static inline struct library_result library_decide(const spki_asked *asked)
{
    struct library_result result = {0};
    struct spki_decision decision = spki_asked_decide(asked, result.line, sizeof result.line, &result.length);
    result.status = decision.status, result.until = decision.until;
    return result;
}

/* Opens a question, marks its first `valid` signatures, decides and closes it: one call of C for what would be four. SPKI_MISUSED unless it has
 * `listed` signatures, the number of them when the `valid` ones were verified, and `valid` is at most `listed`. If the question is not opened, the
 * result is that of library_ask. */
static inline struct library_result library_decide_verified(const spki_guard *guard, struct library_question parts, const char *sequence,
                                                            const char *joined, const size_t *lengths, size_t listed, size_t valid)
{
    struct library_result result = library_ask(guard, parts, sequence, joined, lengths);
    spki_asked *asked = result.asked;
    if (result.status != SPKI_DONE)
        return result;
    result = (struct library_result){.status = SPKI_MISUSED};
    if (spki_asked_count(asked) == listed && valid <= listed) {
        for (size_t place = 0; place < valid; place++)
            spki_asked_mark(asked, place);
        result = library_decide(asked);
    }
    spki_asked_close(asked);
    return result;
}

/* Explains or reduces a question, by the command SPKI_EXPLAIN or SPKI_REDUCE. Sets `lines` to the answer or to the line of a refusal, and to an empty
 * text with SPKI_TOO_SMALL. library_free frees it. The buffer has `room` octets, of which only those that are written use memory of the system. With
 * SPKI_NO_MEMORY `lines` is unchanged. */
static inline enum spki_status library_lines(const spki_asked *asked, enum spki_command command, size_t room, struct spki_text *lines)
{
    void *buffer = malloc(room);
    size_t length = 0;
    if (!buffer)
        return SPKI_NO_MEMORY;
    const struct spki_answered answered =
        command == SPKI_EXPLAIN ? spki_asked_explain(asked, buffer, room, &length) : spki_asked_reduce(asked, buffer, room, &length);
    *lines = (struct spki_text){buffer, answered.status == SPKI_TOO_SMALL ? 0 : length};
    return answered.status;
}

/* Frees the lines of library_lines. */
static inline void library_free(struct spki_text lines)
{
    free((void *)lines.octets);
}
