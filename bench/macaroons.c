/* Ways to grant, in one process: a decision by three certificates through spki_c, from the text of a case (0), and through a guard
 * that is open already, of a question that is open too (1); the verification of a macaroon with three caveats by libmacaroons, from its text
 * to yes (2); and the question opened, its signatures listed, and the decision (3).
 *
 * macaroons CASE PARTS              prints the microseconds of each way, for macaroons.py
 * macaroons CASE PARTS WAY CALLS    grants CALLS times by one way, for counting instructions
 *
 * CASE is the file of the case, and PARTS that of its parts. Ends with 1 if the question is not opened, a way does not grant or there is no such way,
 * 2 for another number of words or a file that cannot be read, and 3 if the list is refused. */
#define _POSIX_C_SOURCE 199309L
#include <macaroons.h>
#include <time.h>

#include "question.h"

#define ROUNDS 200
#define CALLS 50
#define WAYS 4
#define CAVEATS 3

static const char *const caveats[CAVEATS] = {"key = b", "request = ftp", "before = 2030-01-01_00:00:00"};
static const unsigned char key[] = "a secret of the service, 32 long";

static char text[65536], macaroon[4096];
static size_t length;
static struct held held;

/* Decides from the text of the case, and returns whether the answer is yes. */
static int decides(void)
{
    unsigned char line[64];
    size_t needed;
    return spki_answer(SPKI_CHECK, text, length, line, sizeof line, &needed).status == SPKI_YES;
}

/* Decides the question that is open already, and returns whether the answer is yes. */
static int grants(void)
{
    return decide(&held) == SPKI_YES;
}

/* Opens the question and decides it, and returns whether the answer is yes. */
static int opens_and_grants(void)
{
    return open_and_mark(&held) == SPKI_DONE && grants();
}

/* Makes the macaroon with three caveats, and writes its text to `macaroon`. The library requires `fault`, which is not read: all that is passed is
 * constant, so only an allocation could fail. */
static void mint(void)
{
    enum macaroon_returncode fault;
    struct macaroon *minted = macaroon_create((const unsigned char *)"service", 7, key, sizeof key - 1, (const unsigned char *)"id", 2, &fault);
    for (int i = 0; i < CAVEATS; i++) {
        struct macaroon *narrower = macaroon_add_first_party_caveat(minted, (const unsigned char *)caveats[i], strlen(caveats[i]), &fault);
        macaroon_destroy(minted);
        minted = narrower;
    }
    macaroon_serialize(minted, macaroon, sizeof macaroon, &fault);
    macaroon_destroy(minted);
}

/* Reads the macaroon and verifies it, and returns whether it is valid. `fault` is not read: the status of the verification is enough. */
static int verifies(void)
{
    enum macaroon_returncode fault;
    struct macaroon_verifier *verifier = macaroon_verifier_create();
    struct macaroon *read = macaroon_deserialize(macaroon, &fault);
    for (int i = 0; i < CAVEATS; i++)
        macaroon_verifier_satisfy_exact(verifier, (const unsigned char *)caveats[i], strlen(caveats[i]), &fault);
    int failed = macaroon_verify(verifier, read, key, sizeof key - 1, NULL, 0, &fault);
    macaroon_destroy(read);
    macaroon_verifier_destroy(verifier);
    return failed == 0;
}

/* The mean µs of CALLS calls of one way in a row. -1 if one of them does not grant. */
static double time_of(int (*call)(void))
{
    struct timespec from, to;
    clock_gettime(CLOCK_MONOTONIC, &from);
    for (int i = 0; i < CALLS; i++)
        if (!call()) return -1;
    clock_gettime(CLOCK_MONOTONIC, &to);
    return ((to.tv_sec - from.tv_sec) * 1e6 + (to.tv_nsec - from.tv_nsec) / 1e3) / CALLS;
}

static int (*const ways[WAYS])(void) = {decides, grants, verifies, opens_and_grants};

/* Prints the least µs of each way. The ways take turns, so that other programs disturb all alike. Returns 1, and prints nothing, if one does not
 * grant. */
static int print_times(void)
{
    double least[WAYS] = {1e9, 1e9, 1e9, 1e9};
    for (int turn = 0; turn < ROUNDS * WAYS; turn++) {
        double took = time_of(ways[turn % WAYS]);
        if (took < least[turn % WAYS]) least[turn % WAYS] = took;
    }
    if (least[0] < 0 || least[1] < 0 || least[2] < 0 || least[3] < 0) return 1;
    printf("%.1f %.1f %.1f %.1f\n", least[0], least[1], least[2], least[3]);
    return 0;
}

/* Grants so many times by one way. Returns 1 if it does not grant, or there is no such way. */
static int repeat(unsigned long way, long calls)
{
    for (long i = 0; i < calls; i++)
        if (way >= WAYS || !ways[way]()) return 1;
    return 0;
}

/* Grants by the ways that the words name, as the head of this file says. */
int main(int count, char **words)
{
    FILE *file = count == 3 || count == 5 ? fopen(words[1], "rb") : NULL;
    if (!file) return 2;
    length = fread(text, 1, sizeof text, file);
    fclose(file);
    mint();
    held = held_in(words[2], &highest);
    if (open_and_mark(&held) != SPKI_DONE) return 1;
    return count == 3 ? print_times() : repeat(strtoul(words[3], NULL, 10), strtol(words[4], NULL, 10));
}
