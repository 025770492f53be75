/* Asks the library what `test_clibrary.py` wants to know, with buffers of several sizes, with requests for memory refused, and from
 * several threads. Is linked with --wrap=malloc and --wrap=realloc.
 *
 * Usage: clibrary THREADS REFUSALS < QUESTIONS > ANSWERS
 *
 * A question is a line with the number of a command, 7 for spki_check_accepted, and the lengths of its two texts, then their octets. At most MOST are
 * read. An answer is a line with the status and the length, then its octets. Of each question the first REFUSALS requests for memory are refused in
 * turn. THREADS are at most 64. Ends with 99 and a line on standard error where a call does otherwise than `spki.h` says, or a text is cut off. */
#include "refusals.h"

#include <pthread.h>
#include <spki.h>
#include <stdio.h>
#include <string.h>

/* The most questions; the command of spki_check_accepted; how many octets stand before and behind each buffer, and what each is; what each octet of a
 * buffer is before a call, and `needed`; the octets of a thread's stack; the exit status where a call does otherwise. */
enum { MOST = 10000, CHECK_ACCEPTED = 7, CANARIES = 16, CANARY = 0xa5, UNTOUCHED = 0x5a, UNSET = 12345, STACK = 256 * 1024, BROKEN = 99 };

/* A question: its command and its two texts, and the status and the `length` octets of its answer. */
struct question {
    unsigned command;
    size_t lengths[2];
    unsigned char *texts[2];
    enum spki_status status;
    size_t length;
    unsigned char *answer;
};

static struct question *questions;
static size_t question_count;

/* Ends the program with a line about what is wrong. */
static void fail(const char *what)
{
    fprintf(stderr, "%s\n", what);
    exit(BROKEN);
}

/* A block of at least one octet. Ends the program if there is no memory. */
static void *allocate(size_t length)
{
    void *block = malloc(length ? length : 1);
    if (!block)
        fail("no memory");
    return block;
}

/* Makes the call of a question, with a buffer of `size` octets. */
static enum spki_status ask(const struct question *asked, void *buffer, size_t size, size_t *needed)
{
    if (asked->command == CHECK_ACCEPTED)
        return spki_check_accepted(asked->texts[0], asked->lengths[0], asked->texts[1], asked->lengths[1], buffer, size, needed).status;
    return spki_answer((enum spki_command)asked->command, asked->texts[0], asked->lengths[0], buffer, size, needed).status;
}

/* Whether each of these octets is the wanted one. */
static int are_all(const unsigned char *octets, size_t length, unsigned char wanted)
{
    while (length && *octets == wanted)
        octets++, length--;
    return !length;
}

/* Asks with a buffer of this size between canaries. The known answer must be written if it fits. If not, only a first octet 0 must be written. */
static void ask_with(const struct question *asked, size_t size)
{
    size_t needed = UNSET, written = asked->length <= size ? asked->length : 0;
    unsigned char *block = allocate(size + 2 * CANARIES), *buffer = block + CANARIES;
    memset(block, CANARY, size + 2 * CANARIES);
    memset(buffer, UNTOUCHED, size);
    enum spki_status status = ask(asked, buffer, size, &needed);
    if (needed != asked->length)
        fail("another length is needed");
    if (status != (asked->length <= size ? asked->status : SPKI_TOO_SMALL))
        fail("another status");
    if (written && memcmp(buffer, asked->answer, written))
        fail("another answer");
    if (!written && size && *buffer)
        fail("a line of an earlier call is left where no answer is written");
    if (!written && size)
        written = 1;
    if (!are_all(buffer + written, size - written, UNTOUCHED))
        fail("the buffer is written where no answer stands");
    if (!are_all(block, CANARIES, CANARY) || !are_all(buffer + size, CANARIES, CANARY))
        fail("the call writes past the buffer");
    free(block);
}

/* Asks once for each of the first `most` requests for memory, with that one refused, until the call makes fewer. Each must get `refused Memory`. */
static void ask_refused(const struct question *asked, size_t most)
{
    static const char refused[] = "refused Memory\n";
    size_t size = asked->length + sizeof refused, needed;
    unsigned char *buffer = allocate(size);
    for (size_t request = 1; request <= most; request++) {
        is_refused = 0;
        until_refusal = request;
        enum spki_status status = ask(asked, buffer, size, &needed);
        until_refusal = 0;
        if (!is_refused)
            break;
        if (status != SPKI_REFUSED || needed != sizeof refused - 1 || memcmp(buffer, refused, needed))
            fail("another answer where memory is refused");
    }
    free(buffer);
}

/* Asks without a buffer, then with one of the length that was needed, whose answer is kept, then with smaller and larger ones. */
static void answer(struct question *asked)
{
    if (ask(asked, NULL, 0, &asked->length) != SPKI_TOO_SMALL || !asked->length)
        fail("an answer without octets");
    asked->answer = allocate(asked->length);
    asked->status = ask(asked, asked->answer, asked->length, NULL);
    ask_with(asked, 0);
    ask_with(asked, asked->length - 1);
    ask_with(asked, asked->length);
    ask_with(asked, asked->length + 40);
}

/* The start of a thread: asks all questions, from the one at a place (a size_t) on, with room for the answer and in turn for one octet more. */
static void *ask_all(void *place)
{
    size_t first = *(size_t *)place;
    for (size_t i = 0; i < question_count; i++) {
        const struct question *asked = &questions[(first + i) % question_count];
        ask_with(asked, asked->length + i % 2);
    }
    return NULL;
}

/* Asks all questions in each of `count` threads with small stacks at once. */
static void ask_side_by_side(size_t count)
{
    pthread_t threads[64];
    size_t firsts[64];
    pthread_attr_t small;
    if (count > 64 || pthread_attr_init(&small) || pthread_attr_setstacksize(&small, STACK))
        fail("no threads of this kind");
    for (size_t i = 0; i < count; i++) {
        firsts[i] = i * question_count / count;
        if (pthread_create(&threads[i], &small, ask_all, &firsts[i]))
            fail("no thread");
    }
    for (size_t i = 0; i < count; i++)
        pthread_join(threads[i], NULL);
    pthread_attr_destroy(&small);
}

/* A command that does not exist must be misuse, and set the first octet of the buffer to 0. */
static void expect_unknown_command(unsigned command, unsigned char *buffer, size_t size)
{
    size_t needed = UNSET;
    memset(buffer, UNTOUCHED, size);
    if (spki_answer((enum spki_command)command, "1:a", 3, buffer, size, &needed).status != SPKI_MISUSED || needed)
        fail("an unknown command is answered");
    if (*buffer || !are_all(buffer + 1, size - 1, UNTOUCHED))
        fail("misuse leaves a line, or writes to the buffer");
}

/* Makes calls that must be misuse. */
static void expect_misuse(void)
{
    unsigned char buffer[64];
    size_t needed = UNSET;
    for (unsigned command = 7; command; command *= 2) /* (until no bit is left) */
        expect_unknown_command(command, buffer, sizeof buffer);
    if (spki_answer(SPKI_CHECK, NULL, 1, buffer, sizeof buffer, &needed).status != SPKI_MISUSED || needed)
        fail("a null text with a length");
    if (spki_answer(SPKI_CHECK, "1:a", 3, NULL, 64, NULL).status != SPKI_MISUSED)
        fail("a null buffer with a length");
    if (spki_answer(SPKI_CHECK, "1:a", (size_t)PTRDIFF_MAX + 1, buffer, sizeof buffer, NULL).status != SPKI_MISUSED
        || spki_answer(SPKI_CHECK, "1:a", 3, buffer, SIZE_MAX, NULL).status != SPKI_MISUSED)
        fail("more octets than memory has");
    if (spki_check_accepted(NULL, 1, "", 0, buffer, sizeof buffer, NULL).status != SPKI_MISUSED
        || spki_check_accepted("", 0, NULL, 1, buffer, sizeof buffer, NULL).status != SPKI_MISUSED
        || spki_check_accepted("", 0, "", 0, NULL, 1, NULL).status != SPKI_MISUSED)
        fail("null pointers with lengths");
    if (*buffer || !are_all(buffer + 1, sizeof buffer - 1, UNTOUCHED))
        fail("misuse leaves a line, or writes to the buffer");
}

/* Reads the next question. Returns 0 at the end, or for another form. A text without octets is a null pointer. Ends the program if one is cut off. */
static int read_question(struct question *asked)
{
    memset(asked, 0, sizeof *asked);
    if (scanf("%u %zu %zu", &asked->command, &asked->lengths[0], &asked->lengths[1]) != 3 || getchar() != '\n')
        return 0;
    for (int i = 0; i < 2; i++) {
        asked->texts[i] = asked->lengths[i] ? allocate(asked->lengths[i]) : NULL;
        if (asked->lengths[i] && fread(asked->texts[i], 1, asked->lengths[i], stdin) != asked->lengths[i])
            fail("a question is cut off");
    }
    return 1;
}

int main(int count, char **words)
{
    expect_misuse();
    questions = allocate(MOST * sizeof *questions);
    if (count != 3)
        fail("usage: clibrary THREADS REFUSALS");
    while (question_count < MOST && read_question(&questions[question_count])) {
        answer(&questions[question_count]);
        ask_refused(&questions[question_count++], (size_t)atoi(words[2]));
    }
    ask_side_by_side((size_t)atoi(words[1]));
    for (size_t i = 0; i < question_count; i++) {
        struct question *asked = &questions[i];
        printf("%d %zu\n", (int)asked->status, asked->length);
        fwrite(asked->answer, 1, asked->length, stdout);
        free(asked->answer);
        free(asked->texts[0]);
        free(asked->texts[1]);
    }
    free(questions);
    return 0;
}
