/* Asks until when a question is a yes, and whether it is one then and a second later: `until.py`.
 *
 * Usage: until LIST SEQUENCE KEY MOMENT. Prints the status and the last second of the decision, and 1 or 0 for each of the two seconds if they can be
 * asked. Ends with 1 for other words or a list that is refused, 2 for a question that is refused, 3 if spki_asked_granted differs. */
#include <inttypes.h>
#include <spki.h>
#include <stdio.h>
#include <stdlib.h>
#include <string.h>

/* A C string as a text. */
static struct spki_text text(const char *words)
{
    return (struct spki_text){words, strlen(words)};
}

/* Decides a question, whose signatures are all valid. Ends the program if it is refused, or if spki_asked_granted differs from the decision. */
static struct spki_decision decide(const spki_guard *guard, const struct spki_question *question)
{
    unsigned char line[64];
    spki_asked *asked;
    if (spki_guard_ask(guard, question, &asked, line, sizeof line, NULL) != SPKI_DONE)
        exit(2);
    for (size_t place = 0; spki_asked_mark(asked, place) == SPKI_DONE; place++)
        continue;
    const struct spki_decision decision = spki_asked_decide(asked, line, sizeof line, NULL);
    if (spki_asked_granted(asked) != (decision.status == SPKI_YES))
        exit(3);
    spki_asked_close(asked);
    return decision;
}

int main(int count, char **words)
{
    spki_guard *guard;
    char moment[32];
    struct spki_question question = {.size = sizeof question, .request = text("x")};
    if (count != 5 || spki_guard_open(words[1], strlen(words[1]), SPKI_STRICT, NULL, &guard, NULL, 0, NULL) != SPKI_DONE)
        return 1;
    question.sequence = text(words[2]);
    question.key = spki_assume_key(text(words[3]));
    snprintf(moment, sizeof moment, "19:%s", words[4]);
    question.moment = text(moment);
    const struct spki_decision decision = decide(guard, &question);
    printf("%d %" PRId64, decision.status, decision.until);
    question.moment = (struct spki_text){0};
    /* (both seconds must be ones that can be asked: not before 1970, and not after the year 9999) */
    for (int64_t later = 0; later < 2 && decision.until >= 0 && decision.until < 253402300799; later++) {
        const int64_t seconds = decision.until + later;
        question.seconds = &seconds;
        printf(" %d", decide(guard, &question).status == SPKI_YES);
    }
    puts("");
    spki_guard_close(guard);
    return 0;
}
