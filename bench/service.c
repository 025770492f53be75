/* Times what a service does with the library, and prints numbers that `service.py` compares.
 *
 * service decide FILE           the µs of listing the signatures and of a decision
 * service widest KIND FILE      with a limit of 64 KiB, of one question whose answer is `decide`, `explain` or `reduce`: the
 *                               status, the ms of the processor in all, those of listing the signatures, and the MiB that the library takes
 * service threads N FILE        of one thread and of N (1 to 64), each with a guard of its own, the questions that are opened and decided in a
 *                               second; how many times as far N threads count as one; and how often the N threads waited for each 1,000
 *                               of them
 *
 * For counting instructions:
 *
 * service ask FILE CALLS        CALLS times the question opened, the signatures listed and a decision
 * service reopen LIST CALLS     CALLS guards of a list
 * service answer CASE CALLS     CALLS decisions of a case, each from its text
 *
 * To list the signatures is to open the question, to list them and to mark them: `open_and_mark` of question.h.
 * Ends with 2 for other words or a file that cannot be read, 3 for a list that is refused, 4 for another answer than is timed, and 5 if a thread
 * cannot be started. */
#define _GNU_SOURCE
#include "question.h"
#include <malloc.h>
#include <pthread.h>
#include <stdatomic.h>
#include <stdbool.h>
#include <sys/resource.h>
#include <time.h>

enum { ROUNDS = 40, CALLS = 50, MOST_THREADS = 64, TURNS = 5 };

/* What a clock shows, in µs. */
static double time_by(clockid_t clock)
{
    struct timespec time;
    clock_gettime(clock, &time);
    return time.tv_sec * 1e6 + time.tv_nsec / 1e3;
}

/* What the monotonic clock shows, in µs. */
static double now(void)
{
    return time_by(CLOCK_MONOTONIC);
}

/* Sets `least` to `took` if that is less, or if `least` is 0, which means that no time was taken yet. */
static void keep_least(double *least, double took)
{
    if (*least == 0 || took < *least)
        *least = took;
}

/* The mean µs of CALLS calls in a row. Ends the program with status 4 if one returns another status than `wanted`. */
static double time_of(enum spki_status (*call)(struct held *), struct held *held, enum spki_status wanted)
{
    double begun = now();
    for (int i = 0; i < CALLS; i++)
        if (call(held) != wanted)
            exit(4);
    return (now() - begun) / CALLS;
}

/* The way `decide`: prints the least µs of listing the signatures, and of a decision. */
static void decide_file(const char *path)
{
    struct held held = held_in(path, &highest);
    double listing = 0, deciding = 0;
    for (int round = 0; round < ROUNDS; round++) {
        keep_least(&listing, time_of(open_and_mark, &held, SPKI_DONE));
        keep_least(&deciding, time_of(decide, &held, SPKI_YES));
    }
    printf("%.2f %.2f\n", listing, deciding);
}

/* Reads a file, at most its first 2 MiB. Ends the program with status 2 if it cannot. */
static struct spki_text whole_file(const char *path)
{
    struct spki_text text = {malloc(2 << 20), 0};
    FILE *file = fopen(path, "rb");
    if (!file || !text.octets)
        exit(2);
    text.length = fread((void *)text.octets, 1, 2 << 20, file);
    fclose(file);
    return text;
}

/* The number on the line of /proc/self/status that begins with a name, in KiB. 0 if there is none. */
static long memory(const char *name)
{
    char line[256];
    long kibibytes = 0;
    FILE *file = fopen("/proc/self/status", "r");
    while (file && fgets(line, sizeof line, file))
        if (!strncmp(line, name, strlen(name)))
            kibibytes = strtol(line + strlen(name), NULL, 10);
    if (file)
        fclose(file);
    return kibibytes;
}

/* Gives free memory back to the system, so that it counts when it is taken again, and has the kernel count the most memory anew. */
static void forget_peak(void)
{
    malloc_trim(0);
    FILE *file = fopen("/proc/self/clear_refs", "w");
    if (file) {
        fputs("5", file); /* (5 sets VmHWM, the most memory, to what is in use) */
        fclose(file);
    }
}

/* `spki_asked_explain` as a call that `answer_by` of question.h takes: returns the status alone. */
static enum spki_status status_of_explanation(const spki_asked *asked, void *buffer, size_t room, size_t *needed)
{
    return spki_asked_explain(asked, buffer, room, needed).status;
}

/* `spki_asked_reduce` as a call that `answer_by` of question.h takes: returns the status alone. */
static enum spki_status status_of_reduction(const spki_asked *asked, void *buffer, size_t room, size_t *needed)
{
    return spki_asked_reduce(asked, buffer, room, needed).status;
}

/* The call for an answer of a kind, `decide`, `explain` or `reduce`. Ends the program with status 2 for another word. */
static answering *call_for(const char *kind)
{
    static const struct { const char *kind; answering *call; } calls[] = {
        {"decide", decision_of}, {"explain", status_of_explanation}, {"reduce", status_of_reduction}};
    for (size_t i = 0; i < sizeof calls / sizeof *calls; i++)
        if (!strcmp(kind, calls[i].kind))
            return calls[i].call;
    exit(2);
}

/* The way `widest`: prints the status of one answer of a kind, or of opening the question if that fails, the ms of listing the signatures and
 * answering, those of listing them, and the MiB. The limits are the usual ones, but without those on certificates and on strings of a request. */
static void ask_widest(const char *kind, const char *path)
{
    struct spki_limits limits = SPKI_USUAL_LIMITS;
    limits.certificates = limits.words = SIZE_MAX;
    answering *call = call_for(kind);
    struct held held = held_in(path, &limits);
    /* The room for answers is the caller's, and is no part of what the question takes. */
    memset(held.buffer, 1, held.room);
    forget_peak();
    long before = memory("VmRSS:");
    double begun = time_by(CLOCK_PROCESS_CPUTIME_ID);
    enum spki_status status = open_and_mark(&held);
    double listed = time_by(CLOCK_PROCESS_CPUTIME_ID) - begun;
    if (status == SPKI_DONE)
        status = answer_by(&held, call);
    double took = time_by(CLOCK_PROCESS_CPUTIME_ID) - begun;
    printf("%d %.2f %.2f %.2f\n", status, took / 1e3, listed / 1e3, (memory("VmHWM:") - before) / 1024.0);
}

static atomic_bool stop;
static struct held of_threads[MOST_THREADS];
/* How often each thread did its work, and waited. `apart` fills 128 octets, so that the numbers of two threads are in no one line of a cache. */
static struct { long count, waits; char apart[112]; } tallies[MOST_THREADS];

/* How often the thread that calls this has waited for something else than a processor, as for a lock. */
static long waits(void)
{
    struct rusage used;
    getrusage(RUSAGE_THREAD, &used);
    return used.ru_nvcsw;
}

/* What a thread does until it is stopped: opens and decides its question, and counts. `number` is that of the thread, from 0, as a pointer. */
static void *decide_on(void *number)
{
    size_t thread = (size_t)number;
    long count = 0, before = waits();
    while (!atomic_load_explicit(&stop, memory_order_relaxed))
        if (open_and_mark(&of_threads[thread]) == SPKI_DONE && decide(&of_threads[thread]) == SPKI_YES)
            count++;
    tallies[thread].count = count;
    tallies[thread].waits = waits() - before;
    return NULL;
}

/* What a thread does until it is stopped, to find out how many processors are free: it only counts, and of what threads share it reads only `stop`.
 * `number` is that of the thread, from 0, as a pointer. The waits of an earlier work stay in `tallies`: nothing prints them for this one. */
static void *count_on(void *number)
{
    long count = 0;
    while (!atomic_load_explicit(&stop, memory_order_relaxed))
        count++;
    tallies[(size_t)number].count = count;
    return NULL;
}

/* How often threads do their work in a second, and how often they wait for each 1,000 times. */
struct rate {
    double by_time, waits;
};

/* Has so many threads, 1 to MOST_THREADS, do some work for half a second, and returns how often they did it and waited. Ends the program with status
 * 5 if a thread cannot be started. */
static struct rate rate_of(void *(*work)(void *), size_t threads)
{
    pthread_t ids[MOST_THREADS];
    long total = 0, waited = 0;
    atomic_store(&stop, false);
    double begun = now();
    for (size_t i = 0; i < threads; i++)
        if (pthread_create(&ids[i], NULL, work, (void *)i))
            exit(5);
    nanosleep(&(struct timespec){0, 500000000}, NULL);
    atomic_store(&stop, true);
    for (size_t i = 0; i < threads; i++) {
        pthread_join(ids[i], NULL);
        total += tallies[i].count;
        waited += tallies[i].waits;
    }
    /* (1 more, so that nothing is divided by 0 if the threads did no work) */
    return (struct rate){total / (now() - begun) * 1e6, waited * 1e3 / (total + 1)};
}

/* Sets `fastest` to another rate if threads did their work more often in a second there. */
static void keep_fastest(struct rate *fastest, struct rate other)
{
    if (other.by_time > fastest->by_time)
        *fastest = other;
}

/* The way `threads`: prints the decisions a second of one thread and of many, how many times as far many count as one, and how often many wait. */
static void ask_by_threads(size_t threads, const char *path)
{
    void *(*const works[])(void *) = {decide_on, count_on};
    /* Of one thread and of many, by the place in `works`: 0 to decide, 1 to count. */
    struct rate one[2] = {{0, 0}}, many[2] = {{0, 0}};
    for (size_t i = 0; i < threads; i++)
        of_threads[i] = held_in(path, &highest);
    for (int turn = 0; turn < TURNS * 2; turn++) {
        int work = turn % 2;
        keep_fastest(&one[work], rate_of(works[work], 1));
        keep_fastest(&many[work], rate_of(works[work], threads));
    }
    printf("%.0f %.0f %.2f %.3f\n", one[0].by_time, many[0].by_time, many[1].by_time / one[1].by_time, many[0].waits);
}

/* The way `ask`: opens the question, lists the signatures and decides, so many times. */
static void ask(const char *path, long calls)
{
    struct held held = held_in(path, &highest);
    for (long i = 0; i < calls; i++)
        if (open_and_mark(&held) != SPKI_DONE || decide(&held) != SPKI_YES)
            exit(4);
}

/* The way `reopen`: opens and closes a guard of a list, so many times. */
static void reopen(const char *path, long calls)
{
    struct spki_text list = whole_file(path);
    for (long i = 0; i < calls; i++)
        spki_guard_close(open_guard(list, &highest));
}

/* The way `answer`: decides a case from its text, so many times. */
static void answer(const char *path, long calls)
{
    struct spki_text text = whole_file(path);
    unsigned char line[64];
    size_t needed;
    for (long i = 0; i < calls; i++) {
        enum spki_status status = spki_answer(SPKI_CHECK, text.octets, text.length, line, sizeof line, &needed).status;
        if (status != SPKI_YES && status != SPKI_NO)
            exit(4);
    }
}

/* Takes the way that the words name, as the head of this file says. Returns 2 for other words. */
int main(int count, char **words)
{
    const char *way = count > 2 ? words[1] : "";
    /* Is 0 where no number is given. */
    unsigned long threads = count > 3 ? strtoul(words[2], NULL, 10) : 0;
    if (!strcmp(way, "decide"))
        decide_file(words[2]);
    else if (!strcmp(way, "widest") && count > 3)
        ask_widest(words[2], words[3]);
    else if (!strcmp(way, "threads") && threads > 0 && threads <= MOST_THREADS)
        ask_by_threads(threads, words[3]);
    else if (!strcmp(way, "ask") && count > 3)
        ask(words[2], strtol(words[3], NULL, 10));
    else if (!strcmp(way, "reopen") && count > 3)
        reopen(words[2], strtol(words[3], NULL, 10));
    else if (!strcmp(way, "answer") && count > 3)
        answer(words[2], strtol(words[3], NULL, 10));
    else
        return 2;
    return 0;
}
