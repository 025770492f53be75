/* The calls by which proved code takes memory and gives it back, for processors for which the toolchain has none. They are not proved, and
 * all that is proved of the library rests on them. An answer says whether there is memory, and its address. If there is none, the address is
 * that of an octet that is not used. A block of no octets is made of as many as its alignment, because malloc(0) may return null. Otherwise
 * `alignment` is not used: the head of spki.h requires a malloc that aligns each block to the powers of two up to 16 that divide its size. */
#include <stdbool.h>
#include <stdlib.h>

struct allocation {
    bool is_there;
    void *at;
};

/* The answer for what malloc or realloc has returned: a block, or null. */
static struct allocation allocation_of(void *block)
{
    static unsigned char none;
    struct allocation answer = {block, block ? block : &none};
    return answer;
}

struct allocation rattle_alloc(size_t size, size_t alignment)
{
    return allocation_of(malloc(size ? size : alignment));
}

struct allocation rattle_realloc(void *block, size_t old_size, size_t size, size_t alignment)
{
    (void)old_size; /* (realloc knows it) */
    return allocation_of(realloc(block, size ? size : alignment));
}

void rattle_dealloc(void *block)
{
    free(block);
}
