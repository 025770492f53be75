/* Stands in the place of three calls of spki.h, for tests that count them: does each by the library, whose calls of these names are renamed, and
 * adds a line with its name, its status and the length of its answer to the file that SPKI_COUNTED names. */
#include <spki.h>
#include <stdio.h>
#include <stdlib.h>

struct spki_answered of_library_spki_asked_explain(const spki_asked *asked, void *buffer, size_t room, size_t *needed);
struct spki_answered of_library_spki_asked_reduce(const spki_asked *asked, void *buffer, size_t room, size_t *needed);
struct spki_answered of_library_spki_answer(enum spki_command command, const void *text, size_t length, void *buffer, size_t room, size_t *needed);

/* Adds the line of a call to the file, and returns what the call returned. Ends the process if that fails. */
static struct spki_answered log_call(const char *name, struct spki_answered answered, size_t length)
{
    FILE *file = fopen(getenv("SPKI_COUNTED"), "a");
    if (!file || fprintf(file, "%s %d %zu\n", name, answered.status, length) < 0 || fclose(file))
        abort();
    return answered;
}

struct spki_answered spki_asked_explain(const spki_asked *asked, void *buffer, size_t room, size_t *needed)
{
    const struct spki_answered answered = of_library_spki_asked_explain(asked, buffer, room, needed);
    return log_call("explain", answered, *needed);
}

struct spki_answered spki_asked_reduce(const spki_asked *asked, void *buffer, size_t room, size_t *needed)
{
    const struct spki_answered answered = of_library_spki_asked_reduce(asked, buffer, room, needed);
    return log_call("reduce", answered, *needed);
}

struct spki_answered spki_answer(enum spki_command command, const void *text, size_t length, void *buffer, size_t room, size_t *needed)
{
    const struct spki_answered answered = of_library_spki_answer(command, text, length, buffer, room, needed);
    return log_call("answer", answered, *needed);
}
