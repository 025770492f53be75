/* Changes a guard while threads ask it, as the head of spki.h says: each asks while it holds a lock for reading, and the pointer is changed while one
 * thread holds it for writing. Questions that are open are decided after their guard is closed. Prints the line of what is wrong, and ends with 1. */
#define _XOPEN_SOURCE 700
#include <spki.h>

#include <pthread.h>
#include <stdio.h>
#include <stdlib.h>

#define CHECK(what) ((what) ? (void)0 : (printf("line %d: %s\n", __LINE__, #what), exit(1)))

enum { THREADS = 4, TURNS = 40 };

static pthread_rwlock_t lock = PTHREAD_RWLOCK_INITIALIZER;
static spki_guard *guard;

/* Opens a guard that grants Bob, key b, everything, or one that has no entries and grants nothing. */
static spki_guard *open_guard(bool grants)
{
    static const char all[] = "(acl (entry (public-key (test b)) (tag (*))))", none[] = "(acl)";
    spki_guard *opened;
    CHECK(spki_guard_open(grants ? all : none, grants ? sizeof all - 1 : sizeof none - 1, SPKI_STRICT, NULL, &opened, NULL, 0, NULL) == SPKI_DONE);
    return opened;
}

/* Asks under the lock. The answer must be that of the guard which was the current one then. */
static void *ask(void *unused)
{
    static const int64_t now = 1704067200; /* (2024-01-01) */
    static const struct spki_text words = {"ftp", 3};
    const struct spki_question question = {.size = sizeof question, .sequence = SPKI_LITERAL("(sequence)"), .words = &words, .word_count = 1,
                                           .key = spki_assume_key(SPKI_LITERAL("(public-key (test b))")), .seconds = &now};
    for (int turn = 0; turn < TURNS; turn++) {
        spki_asked *asked;
        pthread_rwlock_rdlock(&lock);
        bool grants = spki_guard_entries(guard) == 1;
        CHECK(spki_guard_ask(guard, &question, &asked, NULL, 0, NULL) == SPKI_DONE);
        pthread_rwlock_unlock(&lock);
        /* (the guard may be closed by now) */
        CHECK(spki_asked_granted(asked) == grants);
        spki_asked_close(asked);
    }
    return unused;
}

int main(void)
{
    pthread_t threads[THREADS];
    guard = open_guard(true);
    for (size_t place = 0; place < THREADS; place++)
        CHECK(pthread_create(&threads[place], NULL, ask, NULL) == 0);
    for (int turn = 0; turn < TURNS; turn++) {
        spki_guard *next = open_guard(turn % 2);
        pthread_rwlock_wrlock(&lock);
        spki_guard *last = guard;
        guard = next;
        pthread_rwlock_unlock(&lock);
        spki_guard_close(last);
    }
    for (size_t place = 0; place < THREADS; place++)
        CHECK(pthread_join(threads[place], NULL) == 0);
    spki_guard_close(guard);
    return 0;
}
