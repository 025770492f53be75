/* Refuses requests for memory, in a program that is linked with --wrap=malloc and --wrap=realloc. */
#ifndef REFUSALS_H
#define REFUSALS_H

#include <malloc.h>
#include <stdlib.h>

/* Which request for memory from now on is refused, counted down; none at 0. Whether one was refused. */
static size_t until_refusal;
static int is_refused;

void *__real_malloc(size_t size);
void *__real_realloc(void *block, size_t size);
void *__wrap_malloc(size_t size);
void *__wrap_realloc(void *block, size_t size);

/* Counts a request for memory, and returns whether it is refused. */
static int refuses(void)
{
    if (!until_refusal || --until_refusal)
        return 0;
    is_refused = 1;
    return 1;
}

/* What --wrap calls in place of malloc, and the next function in place of realloc. */
void *__wrap_malloc(size_t size)
{
    return refuses() ? NULL : __real_malloc(size);
}

void *__wrap_realloc(void *block, size_t size)
{
    /* (a block that becomes shorter is not refused: without that it stays as it is) */
    return (!block || malloc_usable_size(block) < size) && refuses() ? NULL : __real_realloc(block, size);
}

#endif
