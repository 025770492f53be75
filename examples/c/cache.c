/* A build cache for one client, whose key TLS has proved. Usage: cache ACL FOLDER KEY SEQUENCE; then lines `read PATH` and `write PATH TEXT`. */
#define _DEFAULT_SOURCE
#include "verify.h"

#include <stdio.h>
#include <time.h>

enum { MOST = 65536 }; /* the most octets of a line, of the client's key, of its certificates, and of what is printed of a file */

/* The first octets of a file, up to `most` or to a fault of reading, which are read into `room`. An empty text if it cannot be opened. */
static struct spki_text octets_of(const char *path, void *room, size_t most)
{
    FILE *file = fopen(path, "rb");
    struct spki_text text = {room, file ? fread(room, 1, most, file) : 0};
    if (file)
        fclose(file);
    return text;
}

/* The decision whether the client's key may make the request of three words at the present second, by the certificates in `sequence`. */
static struct spki_decision decide(const spki_guard *guard, struct spki_proven_key key, struct spki_text sequence, const struct spki_text words[3])
{
    const int64_t now = time(NULL);
    return verify_decides(guard, &(struct spki_question){.size = sizeof(struct spki_question), .sequence = sequence, .key = key, .words = words,
                                                         .word_count = 3, .seconds = &now});
}

/* Whether a path is normal: it begins with `/`, and no part of it is empty, `.` or `..`. */
static bool is_normal(const char *path)
{
    char closed[MOST + 1];
    snprintf(closed, sizeof closed, "%s/", path);
    return *path == '/' && !strstr(closed, "//") && !strstr(closed, "/./") && !strstr(closed, "/../");
}

/* Writes the text to the file at `path` below the folder, and prints `written N` (octets) or `not written`. Unless `writes`, prints what this file
 * has, up to an octet 00 and at most MOST octets, or `nothing is there`. */
static void answer(bool writes, const char *folder, const char *path, const char *text)
{
    static char name[2 * MOST], content[MOST];
    snprintf(name, sizeof name, "%s%s", folder, path);
    FILE *file = fopen(name, writes ? "wb" : "rb");
    const size_t length = !file ? 0 : writes ? fwrite(text, 1, strlen(text), file) : fread(content, 1, sizeof content, file);
    const bool has_failed = !file || ferror(file);
    if ((file && fclose(file)) || has_failed)
        puts(writes ? "not written" : "nothing is there");
    else if (writes)
        printf("written %zu\n", length);
    else
        printf("%.*s\n", (int)length, content);
}

/* Reads a line of the input, without its line feed. False at the end, and for a line that does not fit or has an octet 00: its rest would be another
 * request. */
static bool reads_line(char line[MOST])
{
    int octet, length = 0;
    while ((octet = getchar()) > 0 && octet != '\n' && length < MOST - 1)
        line[length++] = (char)octet;
    line[length] = '\0';
    return octet == '\n' || (feof(stdin) && length > 0);
}

/* Answers each line of its input. Exit status: 0 at the end, 1 for a line that is too long or has an octet 00, 2 for wrong arguments or no list. */
int main(int argc, char **argv)
{
    static char list[1 << 20], key[MOST], sequence[MOST], line[MOST], request[2 * MOST], last_request[2 * MOST];
    struct spki_text text = argc == 5 ? octets_of(argv[1], list, sizeof list) : (struct spki_text){NULL, 0};
    /* (the decision about `last_request`, at first a no: while it holds, the same request is not decided again) */
    struct spki_decision kept = {SPKI_NO, INT64_MIN};
    spki_guard *guard;
    if (spki_guard_open(text.octets, text.length, SPKI_STRICT, NULL, &guard, line, sizeof line, NULL) != SPKI_DONE)
        return 2;
    while (reads_line(line)) {
        char *content = line, *action = strsep(&content, " "), *path = content ? strsep(&content, " ") : "";
        const struct spki_text words[] = {SPKI_LITERAL("cache"), {action, strlen(action)}, {path, strlen(path)}};
        snprintf(request, sizeof request, "%s %s", action, path);
        if (strcmp(request, last_request) || !spki_holds_at(kept, time(NULL)))
            kept = decide(guard, spki_assume_key(octets_of(argv[3], key, sizeof key)), octets_of(argv[4], sequence, sizeof sequence), words);
        strcpy(last_request, request);
        if ((strcmp(action, "read") && strcmp(action, "write")) || !is_normal(path) || !spki_holds_at(kept, time(NULL)))
            puts("denied");
        else
            answer(*action == 'w', argv[2], path, content ? content : "");
    }
    spki_guard_close(guard);
    return !feof(stdin);
}
