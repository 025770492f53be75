/* Decides a request, as a service does that is written in C.
 *
 * Usage: decide ACL SEQUENCE KEY WORD ..
 *
 * ACL is a file of the service, its access list. SEQUENCE and KEY are files of the client. The client must have proved that it holds
 * the key: this program does not check that. The request is the list of the WORDs, or the word where there is one. Keys and signatures have
 * the forms of docs/FORMATS.md, which `spki-cert` writes. verify_gcrypt.c verifies, or verify_openssl.c with -lcrypto.
 *
 *     cc -std=c11 -Wall -Wextra -o decide decide.c verify_gcrypt.c $(pkg-config --cflags --libs spki) -lgcrypt
 */
#include "verify.h"

#include <err.h>
#include <spki.h>
#include <stdio.h>
#include <string.h>
#include <time.h>

enum { MOST_OCTETS = 65536, MOST_WORDS = 16, FIRST_WORD = 4 };

/* Whether a request is granted at `now`, in seconds since 1970. Each word is one string of it, whatever octets it has. False too if a text cannot be
 * read, or a client shows more than the limits of the guard allow. */
static bool is_granted(const spki_guard *guard, struct spki_text sequence, struct spki_proven_key key, const struct spki_text *words,
                       size_t word_count, int64_t now)
{
    const struct spki_question question = {.size = sizeof question, .sequence = sequence, .key = key, .words = words,
                                           .word_count = word_count, .seconds = &now};
    struct spki_signed signature;
    unsigned char line[128];
    spki_asked *asked;
    if (spki_guard_ask(guard, &question, &asked, line, sizeof line, NULL) != SPKI_DONE)
        return false;
    const size_t count = spki_asked_possible(asked) ? spki_asked_count(asked) : 0;
    for (size_t place = 0; place < count && spki_asked_signature(asked, place, &signature) == SPKI_DONE; place++)
        if (verifies(&signature))
            spki_asked_mark(asked, place);
    bool is_yes = spki_asked_granted(asked);
    spki_asked_close(asked);
    return is_yes;
}

/* Reads a file into `octets`, which has room for MOST_OCTETS. If it cannot be read, or is longer, the program ends: no file is cut off. */
static struct spki_text text_of(const char *path, unsigned char *octets)
{
    FILE *file = fopen(path, "rb");
    const struct spki_text text = {octets, file ? fread(octets, 1, MOST_OCTETS, file) : 0};
    if (!file || getc(file) != EOF || ferror(file))
        errx(3, "%s cannot be read, or is too long", path);
    fclose(file);
    return text;
}

/* Prints the decision. The exit status is 0 for granted, 1 for denied, 2 for wrong arguments or no access list, 3 for a file that cannot be read
 * or is too long. */
int main(int argc, char **argv)
{
    static unsigned char octets[3][MOST_OCTETS], line[256];
    struct spki_text texts[3], words[MOST_WORDS];
    if (argc <= FIRST_WORD || argc > FIRST_WORD + MOST_WORDS)
        errx(2, "usage: decide ACL SEQUENCE KEY WORD ..");
    for (int place = 0; place < 3; place++)
        texts[place] = text_of(argv[place + 1], octets[place]);
    for (int place = FIRST_WORD; place < argc; place++)
        words[place - FIRST_WORD] = (struct spki_text){argv[place], strlen(argv[place])};
    spki_guard *guard;
    if (spki_guard_open(texts[0].octets, texts[0].length, SPKI_STRICT, NULL, &guard, line, sizeof line, NULL) != SPKI_DONE)
        errx(2, "%s is no access list", argv[1]);
    /* THE CLIENT MUST HAVE PROVED THAT IT HOLDS THE KEY: a public key is public */
    bool granted = is_granted(guard, texts[1], spki_assume_key(texts[2]), words, (size_t)(argc - FIRST_WORD), time(NULL));
    puts(granted ? "granted" : "denied");
    spki_guard_close(guard);
    return !granted;
}
