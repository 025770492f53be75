/* Counts what is taken while a question is opened, for `service.py`. Is linked with --wrap=malloc, --wrap=realloc and --wrap=free.
 *
 * opening FILE      the octets of the question in the file, the most octets of memory that are taken at once until its signatures are listed,
 *                   those that are kept, and the ms of the processor
 *
 * Ends with 4 if the question is not opened or a decision is misuse, 3 if the list is refused, and 2 for another number of words or a file that
 * cannot be read. */
#define _GNU_SOURCE
#include "question.h"
#include "taken.h"
#include <time.h>

/* The ms of the processor that this process has used. */
static double processor_ms(void)
{
    struct timespec time;
    clock_gettime(CLOCK_PROCESS_CPUTIME_ID, &time);
    return time.tv_sec * 1e3 + time.tv_nsec / 1e6;
}

/* Opens the question of the file, and prints what this takes, as the head of this file says. */
int main(int count, char **words)
{
    if (count != 2)
        return 2;
    struct held held = held_in(words[1], &highest);
    const struct spki_question *question = &held.question;
    size_t octets = question->sequence.length + question->key.text.length + question->request.length + question->moment.length;
    begin_counting();
    double begun = processor_ms();
    enum spki_status status = open_and_mark(&held);
    double took = processor_ms() - begun;
    printf("%zu %zu %zu %.2f\n", octets, most_taken(), taken, took);
    return status == SPKI_DONE && decide(&held) != SPKI_MISUSED ? 0 : 4;
}
