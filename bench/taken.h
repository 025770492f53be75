/* Counts the memory that a program takes by malloc and realloc, but not by calloc. The program is linked with --wrap=malloc, --wrap=realloc and
 * --wrap=free. */
#ifndef TAKEN_H
#define TAKEN_H

#include <malloc.h>
#include <stddef.h>

/* The octets of the blocks that were taken since begin_counting, and the most of them at once. (Freeing an older one, or calloc's, subtracts too.) */
static size_t taken, most;

void *__real_malloc(size_t size);
void *__real_realloc(void *block, size_t size);
void __real_free(void *block);

/* Adds a block, which may be null, to what is taken. Returns it. */
static void *add_block(void *block)
{
    taken += malloc_usable_size(block);
    if (taken > most)
        most = taken;
    return block;
}

/* What --wrap calls in place of malloc, and the next functions in place of realloc and free. */
void *__wrap_malloc(size_t size)
{
    return add_block(__real_malloc(size));
}

/* Counts the old block until the new one is there: while it is copied, both are taken. */
void *__wrap_realloc(void *block, size_t size)
{
    size_t before = malloc_usable_size(block);
    void *other = __real_realloc(block, size);
    if (!other)
        return NULL;
    add_block(other);
    taken -= before;
    return other;
}

/* Frees a block, which may be null, and subtracts it from what is taken. */
void __wrap_free(void *block)
{
    taken -= malloc_usable_size(block);
    __real_free(block);
}

/* Sets what is taken, and the most of it, to 0. */
static inline void begin_counting(void)
{
    taken = most = 0;
}

/* The most octets that were taken at once since the counting began. */
static inline size_t most_taken(void)
{
    return most;
}

#endif
