/* Preloaded before a program, it refuses some of what the program asks for, counted from 1 and from main on:
 *
 *   REFUSE_MEMORY=N, REFUSE_READ=N, REFUSE_WRITE=N   the Nth request for memory, read of standard input, write of standard
 *                                                    output; with N.. each one behind it too
 *   REFUSE_WITH=E    what a refused read or write returns: the error E, by default EIO, or with 0 that it took no octet
 *   REFUSE_STEP=1    a read or a write takes one octet at most
 *   REFUSE_IN=WORD   where the program was started by another word it is left alone
 *
 * At the end it writes to descriptor 3 how many were asked and refused of each, and how many requests for memory came before the first read. A
 * program that hangs is ended by SIGALRM after SECONDS. A function named as one of the C library takes its place, and calls that one as `next`. */
#define _GNU_SOURCE
#include <dlfcn.h>
#include <errno.h>
#include <malloc.h>
#include <stdio.h>
#include <stdlib.h>
#include <string.h>
#include <unistd.h>

#define SECONDS 30
/* Declares `next`, the function of this name that the program would call without this one. */
#define NEXT(type, name) \
    static __typeof__(type) next; \
    if (next == NULL) next = (__typeof__(type))dlsym(RTLD_NEXT, name)

/* The calls of one kind: the first to be refused (counted from 1, or 0), how many were made, how many refused, and whether all behind it are too. */
struct calls {
    unsigned long first, asked, refused;
    int all;
};

typedef int entry(int, char **, char **);

static struct calls memory, reads, writes;
static unsigned long before_reads;
static int counting, error_number, one_octet;
static entry *program;

/* Counts a call, and returns whether it is refused. */
static int is_refused(struct calls *calls) {
    if (!counting) return 0;
    calls->asked++;
    if (calls->first == 0 || calls->asked < calls->first || (calls->asked > calls->first && !calls->all)) return 0;
    calls->refused++;
    return 1;
}

/* Fails as malloc does. */
static void *no_memory(void) {
    errno = ENOMEM;
    return NULL;
}

/* Reads from a variable of the environment which calls are refused: N, or N.. for all from there on. */
static void read_plan(struct calls *calls, const char *name) {
    const char *words = getenv(name);
    if (words == NULL) return;
    calls->first = strtoul(words, NULL, 10);
    calls->all = strstr(words, "..") != NULL;
}

/* In place of malloc of the C library, which is `next` here. The functions below take the places of others in the same way. */
void *malloc(size_t size) {
    NEXT(void *(*)(size_t), "malloc");
    return is_refused(&memory) ? no_memory() : next(size);
}

void *calloc(size_t count, size_t size) {
    NEXT(void *(*)(size_t, size_t), "calloc");
    return is_refused(&memory) ? no_memory() : next(count, size);
}

void *realloc(void *old, size_t size) {
    NEXT(void *(*)(void *, size_t), "realloc");
    /* (a block that becomes shorter is not refused: without that it stays as it is) */
    return (old == NULL || malloc_usable_size(old) < size) && is_refused(&memory) ? no_memory() : next(old, size);
}

void *reallocarray(void *old, size_t count, size_t size) {
    NEXT(void *(*)(void *, size_t, size_t), "reallocarray");
    return is_refused(&memory) ? no_memory() : next(old, count, size);
}

void *memalign(size_t align, size_t size) {
    NEXT(void *(*)(size_t, size_t), "memalign");
    return is_refused(&memory) ? no_memory() : next(align, size);
}

void *aligned_alloc(size_t align, size_t size) {
    NEXT(void *(*)(size_t, size_t), "aligned_alloc");
    return is_refused(&memory) ? no_memory() : next(align, size);
}

int posix_memalign(void **out, size_t align, size_t size) {
    NEXT(int (*)(void **, size_t, size_t), "posix_memalign");
    return is_refused(&memory) ? ENOMEM : next(out, align, size);
}

/* What a refused read or write returns: REFUSE_WITH. */
static ssize_t refused_result(void) {
    errno = error_number;
    return error_number == 0 ? 0 : -1;
}

/* In place of read. One of standard input may be refused, and takes at most one octet where REFUSE_STEP is set. */
ssize_t read(int file, void *octets, size_t most) {
    NEXT(ssize_t (*)(int, void *, size_t), "read");
    if (file == 0 && reads.asked == 0) before_reads = memory.asked;
    if (file == 0 && is_refused(&reads)) return refused_result();
    return next(file, octets, file == 0 && one_octet && most > 1 ? 1 : most);
}

/* In place of write. One to standard output may be refused, and takes at most one octet where REFUSE_STEP is set. */
ssize_t write(int file, const void *octets, size_t most) {
    NEXT(ssize_t (*)(int, const void *, size_t), "write");
    if (file == 1 && is_refused(&writes)) return refused_result();
    return next(file, octets, file == 1 && one_octet && most > 1 ? 1 : most);
}

/* Runs in place of the program's main: reads what is to be refused, and calls it. */
static int counting_main(int count, char **words, char **environment) {
    const char *word = getenv("REFUSE_IN");
    if (word != NULL && (count == 0 || strcmp(words[0], word) != 0)) return program(count, words, environment);
    read_plan(&memory, "REFUSE_MEMORY");
    read_plan(&reads, "REFUSE_READ");
    read_plan(&writes, "REFUSE_WRITE");
    error_number = getenv("REFUSE_WITH") == NULL ? EIO : atoi(getenv("REFUSE_WITH"));
    one_octet = getenv("REFUSE_STEP") != NULL;
    alarm(SECONDS);
    counting = 1;
    return program(count, words, environment);
}

/* Is called at the start of each program, by its name in the C library. Puts counting_main in the place of the program's main. */
int __libc_start_main(entry *main, int count, char **words, void (*init)(void), void (*fini)(void), void (*end)(void), void *stack) {
    NEXT(int (*)(entry *, int, char **, void (*)(void), void (*)(void), void (*)(void), void *), "__libc_start_main");
    program = main;
    return next(counting_main, count, words, init, fini, end, stack);
}

/* Is called at the end. Writes the line with the counts to descriptor 3. */
__attribute__((destructor)) static void report(void) {
    char line[200];
    counting = 0;
    int length = snprintf(line, sizeof line, "%lu %lu %lu %lu %lu %lu %lu\n", memory.asked, memory.refused, reads.asked,
                          reads.refused, writes.asked, writes.refused, before_reads);
    if (write(3, line, length) != length) return; /* (whoever reads descriptor 3 sees that the line is missing) */
}
