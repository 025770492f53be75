/* Does calls of spki.h for a process on another kind of machine: `relayed.py`. Its memory, lengths and pointers are those of this process.
 *
 * A request is a number of blocks of memory, of each its length and its octets; a number of addresses, of each a block, a place in it, and
 * the block whose address is written there; a call; and its eight arguments, each as whether it is the address of a block, and the number.
 * Call 0 copies octets from an address into block 0. The others are those of `calls`. The answer is what the call returns, and the address and
 * the octets of each block. Numbers are 8 octets, the lowest first, as both machines have them. Ends with the input, or in a request with BROKEN. */
#include <spki.h>
#include <stdio.h>
#include <stdlib.h>
#include <string.h>

enum { MOST = 4096, ARGUMENTS = 8, BROKEN = 99 };

/* A call as it is made: the machine passes whole numbers and pointers alike. `any` is a type in which the table below can hold each. */
typedef uint64_t call(uint64_t, uint64_t, uint64_t, uint64_t, uint64_t, uint64_t, uint64_t, uint64_t);
typedef void (*any)(void);

/* Decides, and writes the last second to `until`: spki_asked_decide returns a structure, and `call` only a number. */
static enum spki_status decide_to(const spki_asked *asked, void *buffer, size_t length, size_t *needed, int64_t *until)
{
    const struct spki_decision decision = spki_asked_decide(asked, buffer, length, needed);
    *until = decision.until;
    return decision.status;
}

/* In the order of CALLS in relayed.py. */
static const any calls[] = {
    NULL, (any)spki_answer, (any)spki_check_accepted, (any)spki_guard_open, (any)spki_guard_close, (any)spki_guard_entries,
    (any)spki_guard_ask, (any)spki_asked_count, (any)spki_asked_signature, (any)spki_asked_mark, (any)spki_asked_granted,
    (any)spki_asked_possible, (any)decide_to, (any)spki_asked_explain, (any)spki_asked_reduce, (any)spki_asked_close, (any)spki_string};

/* Reads octets. The program ends if there are fewer. */
static void read_octets(void *octets, size_t length)
{
    if (length && fread(octets, 1, length, stdin) != length)
        exit(BROKEN);
}

/* Reads a number of 8 octets. The program ends if there are fewer. */
static uint64_t read_number(void)
{
    uint64_t number;
    read_octets(&number, sizeof number);
    return number;
}

/* Reads a number. The program ends unless it is below `limit`. */
static uint64_t read_number_below(uint64_t limit)
{
    uint64_t number = read_number();
    if (number >= limit)
        exit(BROKEN);
    return number;
}

/* Writes octets. The program ends if that fails. */
static void write_octets(const void *octets, size_t length)
{
    if (length && fwrite(octets, 1, length, stdout) != length)
        exit(BROKEN);
}

/* Reads a block into memory of its own, and sets its length. One without octets has memory too, so its address is not null. The caller frees it. */
static unsigned char *read_block(uint64_t *length)
{
    *length = read_number();
    unsigned char *block = malloc(*length ? *length : 1);
    if (!block)
        exit(BROKEN);
    read_octets(block, *length);
    return block;
}

/* Does the call with this number by eight arguments, and returns what it returns. Number 0 copies octets, args[1] from args[0] on, into block 0. */
static uint64_t do_call(uint64_t number, const uint64_t *args, unsigned char *const *blocks)
{
    if (number)
        return ((call *)calls[number])(args[0], args[1], args[2], args[3], args[4], args[5], args[6], args[7]);
    memcpy(blocks[0], (const void *)(uintptr_t)args[0], args[1]);
    return 0;
}

/* Reads a request, does its call and writes the answer. */
static void answer(void)
{
    static unsigned char *blocks[MOST];
    static uint64_t lengths[MOST];
    uint64_t count = read_number_below(MOST), args[ARGUMENTS];
    for (uint64_t i = 0; i < count; i++)
        blocks[i] = read_block(&lengths[i]);
    for (uint64_t addresses = read_number(); addresses; addresses--) {
        uint64_t in = read_number_below(count), place = read_number_below(lengths[in]), to = read_number_below(count);
        memcpy(blocks[in] + place, &blocks[to], sizeof blocks[to]);
    }
    const uint64_t number = read_number_below(sizeof calls / sizeof *calls);
    for (size_t i = 0; i < ARGUMENTS; i++)
        args[i] = read_number() ? (uint64_t)(uintptr_t)blocks[read_number_below(count)] : read_number();
    const uint64_t returned = do_call(number, args, blocks);
    write_octets(&returned, sizeof returned);
    for (uint64_t i = 0; i < count; i++) {
        write_octets(&blocks[i], sizeof blocks[i]);
        write_octets(blocks[i], lengths[i]);
        free(blocks[i]);
    }
    fflush(stdout);
}

int main(void)
{
    int next;
    while ((next = getchar()) != EOF) {
        ungetc(next, stdin);
        answer();
    }
    return 0;
}
