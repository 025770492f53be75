/* Verifies signatures by examples/c/verify_gcrypt.c or verify_openssl.c. Reads strings from standard input, each as LENGTH:OCTETS: a key, a
 * message and the value of a signature, and so on. Writes 1 for each signature that is valid, 0 for each other, and x for one at which the
 * process ended: a child process verifies, and after that another one goes on. Ends with 1 for MOST or more, or where a child exits with a fault. */
#define _DEFAULT_SOURCE
#include "read_string.h"
#include "verify.h"

#include <sys/mman.h>
#include <sys/wait.h>
#include <unistd.h>

/* There must be fewer signatures. */
enum { MOST = 65536 };

static struct spki_text strings[3 * MOST];

/* Verifies the signatures from one place on, up to `count`, in a child process, which sets 1 or 0 for each in `answers`: both share that memory. It
 * may end before. Returns the first place that is not set. Where the child ends well, a sanitizer says there what it has not freed. */
static size_t verify_from(size_t place, size_t count, char *answers)
{
    int status = 0;
    pid_t child = fork();
    if (child == 0) {
        for (; place < count; place++) {
            struct spki_text *texts = strings + 3 * place;
            answers[place] = verifies(&(struct spki_signed){.key = texts[0], .message = texts[1], .value = texts[2]}) ? '1' : '0';
        }
        exit(0);
    }
    if (child < 0 || waitpid(child, &status, 0) != child || (WIFEXITED(status) && WEXITSTATUS(status) != 0))
        exit(1);
    while (answers[place])
        place++;
    return place;
}

int main(void)
{
    char *answers = mmap(NULL, MOST + 1, PROT_READ | PROT_WRITE, MAP_SHARED | MAP_ANONYMOUS, -1, 0);
    size_t count = 0;
    while (count < 3 * MOST && read_string(&strings[count]))
        count++;
    if (answers == MAP_FAILED || !feof(stdin))
        return 1;
    for (size_t place = 0; place < count / 3;)
        if ((place = verify_from(place, count / 3, answers)) < count / 3)
            answers[place++] = 'x';
    puts(answers);
    while (count > 0)
        free((void *)strings[--count].octets);
    return 0;
}
