/* What one call of the library takes, for `slowest.py`.
 *
 * slowest CALL LIMITS MARKS FILE
 *
 * CALL is `list` (a guard is opened), `question` (a question is opened), `decide`, `explain` or `reduce`. LIMITS are `usual` or `highest`, and
 * MARKS are `all` of the signatures or `half`, every second one. FILE is that of question.h. Prints the status, the least ms of the processor of
 * some runs, and the most octets of memory that the last run takes. Is linked with --wrap=malloc, --wrap=realloc and --wrap=free. */
#define _GNU_SOURCE
#include "question.h"
#include "taken.h"
#include <time.h>

/* The most runs, and the ms of all runs after which no further one begins. */
enum { RUNS = 5 };
static const double ENOUGH = 300;

/* The ms of the processor that this process has used. */
static double used(void)
{
    struct timespec time;
    clock_gettime(CLOCK_PROCESS_CPUTIME_ID, &time);
    return time.tv_sec * 1e3 + time.tv_nsec / 1e6;
}

/* Opens the question, and marks each of its signatures, or with `every` 2 every second one. Returns the status of opening it. */
static enum spki_status ask(struct held *held, size_t every)
{
    size_t needed;
    enum spki_status status = spki_guard_ask(held->guard, &held->question, &held->asked, held->buffer, held->room, &needed);
    size_t signatures = spki_asked_count(held->asked);
    for (size_t place = 0; place < signatures; place += every)
        spki_asked_mark(held->asked, place);
    return status;
}

/* Whether two words are equal. */
static bool equals(const char *word, const char *other)
{
    return !strcmp(word, other);
}

/* Does one call, and sets `took` to its time in ms. `every` is as for `ask`. The question is opened before an explanation or a reduction is timed. A
 * decision's time has the opening in it, since the opening finds out by which entry the request would be granted. What was opened is closed after
 * the time is taken. Returns the status of the last call. */
static enum spki_status time_call(struct held *held, const char *call, const struct spki_limits *limits, size_t every, double *took)
{
    size_t needed;
    spki_guard *guard = NULL;
    enum spki_status status = SPKI_DONE;
    bool is_opened_before = equals(call, "explain") || equals(call, "reduce");
    if (is_opened_before)
        status = ask(held, every);
    begin_counting();
    double begun = used();
    if (equals(call, "list"))
        status = spki_guard_open(held->list.octets, held->list.length, SPKI_STRICT, limits, &guard, held->buffer, held->room, &needed);
    else if (!is_opened_before)
        status = ask(held, every);
    if (status == SPKI_DONE && equals(call, "decide"))
        status = spki_asked_decide(held->asked, held->buffer, held->room, &needed).status;
    else if (status == SPKI_DONE && is_opened_before)
        status = (equals(call, "explain") ? spki_asked_explain : spki_asked_reduce)(held->asked, held->buffer, held->room, &needed).status;
    *took = used() - begun;
    spki_asked_close(held->asked);
    held->asked = NULL;
    spki_guard_close(guard);
    return status;
}

/* Makes the call that the words name some times, and prints what it takes, as the head of this file says. Returns 2 for another number of words, or
 * if there is no memory for the answers. */
int main(int count, char **words)
{
    if (count != 5)
        return 2;
    static const struct spki_limits usual = SPKI_USUAL_LIMITS;
    const struct spki_limits *limits = equals(words[2], "highest") ? &highest : &usual;
    struct held held = held_in(words[4], limits);
    /* The buffer is as large as an answer may be. */
    free(held.buffer);
    held.room = limits->answer ? limits->answer : SPKI_USUAL_ANSWER;
    held.buffer = malloc(held.room);
    if (!held.buffer)
        return 2;
    enum spki_status status = SPKI_DONE;
    double least = 0, all = 0, took;
    for (int run = 0; run < RUNS && all < ENOUGH; run++) {
        status = time_call(&held, words[1], limits, equals(words[3], "half") ? 2 : 1, &took);
        least = run && least < took ? least : took;
        all += took;
    }
    printf("%d %.3f %zu\n", status, least, most_taken());
    return 0;
}
