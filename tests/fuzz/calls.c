/* Calls spki.h with parts that are made from fuzzed octets (libFuzzer), and compares the answers: a guard's with those to the case of the same parts,
 * a decision with its explanation, a text with what it is converted to and back. Some calls are made with a request for memory refused first.
 * `below(in, N)` takes a number below N from the input, and `mostly(in, U, N)` is U in three of four cases.
 *
 * The library is not instrumented, so libFuzzer is told of each new answer as of a new place in the code. */
#include "../programs/refusals.h"
#include "pieces.h"

#include <spki.h>

/* The octets on each side of a buffer, and what each is; what a buffer's are before a call; places of `marks`; a usual buffer; places of `seen`. */
enum { CANARIES = 16, CANARY = 0xa5, UNTOUCHED = 0x5a, MOST_MARKS = 64, ROOM = 256, COUNTERS = 4096 };

/* The answers that were seen, by the checksum of tell_of_answer. libFuzzer reads this section. */
__attribute__((section("__libfuzzer_extra_counters"))) static uint8_t seen[COUNTERS];

int LLVMFuzzerTestOneInput(const uint8_t *data, size_t size);

/* Ends the process with the line `what`, which says what is wrong, unless a condition holds. */
static void expect(int holds, const char *what)
{
    if (holds)
        return;
    fprintf(stderr, "%s\n", what);
    abort();
}

/* Which request for memory of the next `do_call` is refused, from 1, or 0 for none. */
static size_t next_refusal;

/* The answer of a call. With SPKI_TOO_SMALL there is none, and `length` is how many octets it needs. */
struct answer {
    enum spki_status status;
    size_t length;
    unsigned char *octets;
};

/* Tells libFuzzer of an answer: sets the octet of `seen` that a checksum names. It is of the status and of the letters among the first 64 octets of
 * the first line: numbers would make many answers of one. */
static void tell_of_answer(const struct answer *answer)
{
    uint32_t sum = (uint32_t)answer->status;
    for (size_t place = 0; place < answer->length && answer->octets[place] != '\n' && place < 64; place++)
        if (answer->octets[place] > '9')
            sum = sum * 31 + answer->octets[place];
    seen[sum % COUNTERS] = 1;
}

/* A function that does a call of spki.h whose answer goes to a buffer. `with` is a structure with the other arguments of this call. */
typedef enum spki_status call(const void *with, void *buffer, size_t length, size_t *needed);

/* Does a call, the function `calls` with its arguments `with`, with a buffer of this size between canaries, and with the request for memory
 * `next_refusal` refused. Nothing but the answer may be written, and the first octet must be 0 if there is none. The caller frees its `octets`. */
static struct answer do_call(call *calls, const void *with, size_t size)
{
    struct answer answer = {0};
    unsigned char *block = malloc(size + 2 * CANARIES), *buffer = block + CANARIES;
    size_t written; /* how many octets of the buffer are the answer's */
    expect(block != NULL, "no memory");
    memset(block, CANARY, size + 2 * CANARIES);
    memset(buffer, UNTOUCHED, size);
    until_refusal = next_refusal;
    answer.status = calls(with, buffer, size, &answer.length);
    until_refusal = next_refusal = 0;
    written = answer.status == SPKI_TOO_SMALL ? 0 : answer.length;
    expect(answer.status == SPKI_TOO_SMALL ? answer.length > size : answer.length <= size, "another length is needed");
    expect(written || !size || !buffer[0], "a line of an earlier call is left where no answer is written");
    for (size_t place = written ? written : 1; place < size; place++)
        expect(buffer[place] == UNTOUCHED, "the buffer is written where no answer stands");
    for (size_t place = 0; place < CANARIES; place++)
        expect(block[place] == CANARY && buffer[size + place] == CANARY, "the call writes past the buffer");
    memmove(block, buffer, written);
    answer.octets = block;
    return answer;
}

/* Whether an answer is this line, which is a C string. */
static int is_line(const struct answer *answer, const char *wanted)
{
    return answer->length == strlen(wanted) && !memcmp(answer->octets, wanted, answer->length);
}

/* In one of four cases does a call while one of its requests for memory is refused. If the call made that request, its answer must be
 * `refused Memory`. It may make fewer: then it is done, and what it opened is left in its place, which the caller closes. */
static void call_without_memory(struct input *in, call *calls, const void *with)
{
    struct answer answer;
    if (below(in, 4) < 3)
        return;
    is_refused = 0;
    next_refusal = 1 + below(in, 64);
    answer = do_call(calls, with, ROOM);
    expect(!is_refused || (answer.status == SPKI_REFUSED && is_line(&answer, "refused Memory\n")), "another answer where memory is refused");
    free(answer.octets);
}

/* Does a call with a buffer of some size, and once more if that is too small. Returns the answer, whose octets the caller frees. */
static struct answer answer_of(struct input *in, call *calls, const void *with)
{
    static const size_t sizes[] = {ROOM, 0, 1, 11}; /* (`yes entry 1` and its line feed have 12 octets) */
    struct answer answer;
    call_without_memory(in, calls, with);
    answer = do_call(calls, with, sizes[below(in, 4)]);
    if (answer.status == SPKI_TOO_SMALL) {
        free(answer.octets);
        answer = do_call(calls, with, answer.length);
        expect(answer.status != SPKI_TOO_SMALL, "the length that was needed is not enough");
    }
    tell_of_answer(&answer);
    return answer;
}

/* Whether two answers have the same status and octets. */
static int are_same(const struct answer *one, const struct answer *other)
{
    return one->status == other->status && one->length == other->length && !memcmp(one->octets, other->octets, one->length);
}

/* ---- texts */

/* A command and its text, or a case and the text of its rows. */
struct text_args {
    enum spki_command command;
    struct spki_text text, rows;
};

/* The call of spki_answer: `with` is a struct text_args. The calls below take other structures in the same way. */
static enum spki_status call_answer(const void *with, void *buffer, size_t length, size_t *needed)
{
    const struct text_args *args = with;
    return spki_answer(args->command, args->text.octets, args->text.length, buffer, length, needed).status;
}

/* The call of spki_check_accepted, with a struct text_args. */
static enum spki_status call_check_accepted(const void *with, void *buffer, size_t length, size_t *needed)
{
    const struct text_args *args = with;
    return spki_check_accepted(args->text.octets, args->text.length, args->rows.octets, args->rows.length, buffer, length, needed).status;
}

/* Whether two texts have the same octets. */
static int are_equal(struct spki_text one, struct spki_text other)
{
    return one.length == other.length && !memcmp(one.octets, other.octets, one.length);
}

/* A text as the library takes it. The octets are not copied. */
static struct spki_text lent(const struct text *text)
{
    return (struct spki_text){text->octets, text->length};
}

/* Replaces a text by one of its three forms, which the commands 0 to 2 write. A text that is not one value, or whose new form has no room, stays as
 * it is. The new form must have the canonical form of the text. */
static void convert(struct input *in, struct text *text)
{
    struct text_args with = {SPKI_CANONICAL, lent(text), {0}}, again = with;
    struct answer own = answer_of(in, call_answer, &with), other, back;
    with.command = (enum spki_command)below(in, 3);
    other = answer_of(in, call_answer, &with);
    expect(own.status == other.status, "a text is read as one form only");
    again.text = (struct spki_text){other.octets, other.length};
    back = answer_of(in, call_answer, &again);
    expect(own.status != SPKI_DONE || are_same(&own, &back), "a text becomes another one in another form");
    if (own.status == SPKI_DONE && other.length < MOST_OCTETS) {
        text->length = 0;
        put(text, other.octets, other.length);
    }
    free(own.octets);
    free(other.octets);
    free(back.octets);
}

/* Looks for a string at some path in a text in canonical form. If there is none, the call must set a null pointer and the length 0, which are
 * neither before the call. One that is found must be inside the text. */
static void find_string(struct input *in, struct spki_text text)
{
    size_t path[4], depth = below(in, 5), length = 12345;
    const void *octets = &path;
    enum spki_status status;
    for (size_t place = 0; place < depth; place++)
        path[place] = below(in, 5);
    status = spki_string(text.octets, text.length, path, depth, &octets, &length);
    expect(status == SPKI_DONE || status == SPKI_NONE, "a text in canonical form is refused");
    expect(status == SPKI_DONE || (!octets && !length), "a string where there is none");
    expect(status != SPKI_DONE || ((const char *)octets >= (const char *)text.octets
                                   && (const char *)octets + length <= (const char *)text.octets + text.length), "a string outside its text");
}

/* ---- guards and questions */

/* What a guard is opened with, and where it is put. */
struct guard_args {
    struct spki_text list;
    enum spki_policy policy;
    struct spki_limits *limits;
    spki_guard **guard;
};

/* The call of spki_guard_open, with a struct guard_args. */
static enum spki_status call_guard_open(const void *with, void *buffer, size_t length, size_t *needed)
{
    const struct guard_args *args = with;
    enum spki_status status = spki_guard_open(args->list.octets, args->list.length, args->policy, args->limits, args->guard, buffer, length, needed);
    expect((status == SPKI_DONE) == (*args->guard != NULL), "a list without a guard, or a guard without a list");
    return status;
}

/* A guard, the question that it is asked, and where the opened question is put. */
struct question_args {
    const spki_guard *guard;
    struct spki_question *question;
    spki_asked **asked;
};

/* The call of spki_guard_ask, with a struct question_args. */
static enum spki_status call_guard_ask(const void *with, void *buffer, size_t length, size_t *needed)
{
    const struct question_args *args = with;
    enum spki_status status = spki_guard_ask(args->guard, args->question, args->asked, buffer, length, needed);
    expect((status == SPKI_DONE) == (*args->asked != NULL), "a question without a handle, or a handle without a question");
    return status;
}

/* An opened question, and the call that answers it. */
struct asked_args {
    spki_asked *asked;
    enum spki_status (*answers)(const spki_asked *, void *, size_t, size_t *);
};

/* The call that a struct asked_args names: status_of_explanation, status_of_reduction or status_of_decision. */
static enum spki_status call_asked(const void *with, void *buffer, size_t length, size_t *needed)
{
    const struct asked_args *args = with;
    return args->answers(args->asked, buffer, length, needed);
}

/* For `answers` of struct asked_args: explains an opened question, and returns the status alone. */
static enum spki_status status_of_explanation(const spki_asked *asked, void *buffer, size_t length, size_t *needed)
{
    return spki_asked_explain(asked, buffer, length, needed).status;
}

/* For `answers` of struct asked_args: reduces an opened question, and returns the status alone. */
static enum spki_status status_of_reduction(const spki_asked *asked, void *buffer, size_t length, size_t *needed)
{
    return spki_asked_reduce(asked, buffer, length, needed).status;
}

/* The first place that has a signature equal to that at a place. Equal ones are marked alike, since the rows of a case cannot tell them apart. */
static size_t first_equal(const spki_asked *asked, size_t place)
{
    struct spki_signed own, other;
    size_t first = 0;
    expect(spki_asked_signature(asked, place, &own) == SPKI_DONE, "no signature");
    while (spki_asked_signature(asked, first, &other) == SPKI_DONE && !(are_equal(own.key, other.key) && are_equal(own.message, other.message)
                                                                        && are_equal(own.value, other.value)))
        first++;
    return first;
}

/* Looks at the signatures of a question, marks some of them, equal ones alike, and writes `(accepted (by ..) ..)` to `rows`, with
 * a row for each that is marked. Returns how many are not. */
static size_t mark_some(struct input *in, spki_asked *asked, struct text *rows)
{
    static int marks[MOST_MARKS];
    const size_t count = spki_asked_count(asked);
    struct spki_signed signature;
    size_t unmarked = 0;
    begin_list(rows, "accepted");
    expect(count <= MOST_MARKS, "more signatures than certificates");
    for (size_t place = 0; place < count; place++) {
        struct text message = {0};
        expect(spki_asked_signature(asked, place, &signature) == SPKI_DONE, "no signature");
        find_string(in, signature.key);
        find_string(in, signature.message);
        find_string(in, signature.value);
        marks[place] = mostly(in, 1, 3) == 1;
        marks[place] = marks[first_equal(asked, place)];
        if (!marks[place]) {
            unmarked++;
            continue;
        }
        expect(spki_asked_mark(asked, place) == SPKI_DONE, "a signature that cannot be marked");
        begin_list(rows, "by");
        put(rows, signature.key.octets, signature.key.length);
        put(&message, signature.message.octets, signature.message.length);
        put_hash(rows, &message, BY_SHA256); /* (a row requires this algorithm) */
        put(rows, signature.value.octets, signature.value.length);
        end_list(rows);
    }
    end_list(rows);
    expect(spki_asked_signature(asked, count, &signature) == SPKI_NONE && !signature.key.octets, "a signature too many");
    expect(spki_asked_mark(asked, count) == SPKI_MISUSED, "a mark too many");
    return unmarked;
}

/* Explains and reduces an opened question, unless that is TooLarge. The explanation must name the entry of a yes, and no entry with a no. */
static void explain(struct input *in, struct asked_args *with, const struct answer *decision)
{
    struct answer lines;
    char wanted[64] = "grants\n";
    with->answers = status_of_explanation;
    lines = answer_of(in, call_asked, with);
    expect(lines.status == SPKI_DONE || is_line(&lines, "refused TooLarge\n"), "no explanation");
    if (lines.status == SPKI_DONE) {
        const unsigned char *found;
        if (decision->status == SPKI_YES) /* "yes entry 1\n" becomes "entry 1 grants\n": without the first 4 octets and the last */
            snprintf(wanted, sizeof wanted, "%.*s grants\n", (int)decision->length - 5, (const char *)decision->octets + 4);
        found = memmem(lines.octets, lines.length, wanted, strlen(wanted));
        expect((decision->status == SPKI_YES) == (found != NULL), "the explanation says otherwise than the decision");
    }
    free(lines.octets);
    with->answers = status_of_reduction;
    lines = answer_of(in, call_asked, with);
    expect(lines.status == SPKI_DONE || is_line(&lines, "refused TooLarge\n"), "no reduction");
    free(lines.octets);
}

/* Adds a part to a case, in canonical form: in a list with this head, or as it is without a head. */
static void put_part(struct input *in, struct text *whole, const char *head, const struct text *part)
{
    struct text_args with = {SPKI_CANONICAL, lent(part), {0}};
    struct answer canonical = answer_of(in, call_answer, &with);
    expect(canonical.status == SPKI_DONE, "a part that was read is no value");
    if (head)
        begin_list(whole, head);
    put(whole, canonical.octets, canonical.length);
    if (head)
        end_list(whole);
    free(canonical.octets);
}

/* Decides the case of the same parts, once by accepted signatures (`rows`) that are given apart, and once by the same in the case (`own`). Each
 * answer must be that of the guard, unless the tags are too large or the case has no room. */
static void compare_with_case(struct input *in, const struct parts *parts, const struct text *rows, enum spki_policy policy,
                              const struct answer *decision)
{
    static struct text whole[2];
    struct text_args with = {SPKI_CHECK, {0}, lent(rows)};
    for (int own = 0; own < 2; own++) {
        struct answer answer;
        whole[own].length = whole[own].lacks_room = 0;
        begin_list(&whole[own], "case");
        put_part(in, &whole[own], NULL, &parts->list);
        put(&whole[own], own ? (const char *)rows->octets : "(8:accepted)", own ? rows->length : 12);
        put_part(in, &whole[own], NULL, &parts->sequence);
        put_part(in, &whole[own], "key", &parts->key);
        put_part(in, &whole[own], "request", &parts->request);
        put_part(in, &whole[own], "at", &parts->moment);
        if (policy == SPKI_STRICT)
            put(&whole[own], "(6:policy6:strict)", 18);
        end_list(&whole[own]);
        with.text = lent(&whole[own]);
        answer = answer_of(in, own ? call_answer : call_check_accepted, &with);
        /* (what has no room is left out of `whole`, so it is another case then) */
        expect(are_same(&answer, decision) || is_line(&answer, "refused TooLarge\n") || whole[own].lacks_room || rows->lacks_room,
               "the guard decides otherwise than the case");
        free(answer.octets);
    }
}

/* For `answers` of struct asked_args: decides an opened question. Only a yes has an end, `until`: otherwise it is INT64_MIN. */
static enum spki_status status_of_decision(const spki_asked *asked, void *buffer, size_t length, size_t *needed)
{
    const struct spki_decision decision = spki_asked_decide(asked, buffer, length, needed);
    expect((decision.status == SPKI_YES) == (decision.until != INT64_MIN), "a yes without an end, or the end of none");
    return decision.status;
}

/* Marks some signatures of an opened question and decides it. Compares the decision with what was possible, the case and the explanation. */
static void decide(struct input *in, const struct parts *parts, spki_asked *asked, enum spki_policy policy)
{
    static struct text rows;
    struct asked_args with = {asked, status_of_decision};
    struct answer decision, again;
    const size_t count = spki_asked_count(asked);
    const bool is_possible = spki_asked_possible(asked);
    size_t unmarked;
    rows.length = rows.lacks_room = 0;
    expect(!count || !spki_asked_granted(asked), "a grant without a valid signature");
    unmarked = mark_some(in, asked, &rows);
    decision = answer_of(in, call_asked, &with);
    expect(decision.status == SPKI_YES || is_line(&decision, "no\n"), "no decision");
    expect(spki_asked_granted(asked) == (decision.status == SPKI_YES), "spki_asked_granted says otherwise than the decision");
    expect(decision.status == SPKI_NO || !unmarked, "a grant with a signature that is not valid");
    expect(unmarked || is_possible == (decision.status == SPKI_YES), "all signatures are valid, and the answer is not the one that was possible");
    expect(spki_asked_possible(asked) == is_possible, "a mark changes what is possible");
    compare_with_case(in, parts, &rows, policy, &decision);
    explain(in, &with, &decision);
    with.answers = status_of_decision;
    again = answer_of(in, call_asked, &with);
    expect(are_same(&decision, &again), "another decision by the same marks");
    free(again.octets);
    free(decision.octets);
}

/* Asks a guard the question of these parts, overwrites the texts of the question, which are copies, closes the guard, and then decides it. */
static void ask(struct input *in, const struct parts *parts, spki_guard *guard, enum spki_policy policy)
{
    static struct parts copy;
    struct spki_text words[MOST_WORDS + 1];
    struct spki_question question = {.size = sizeof question};
    spki_asked *asked = NULL;
    struct question_args with = {guard, &question, &asked};
    struct answer answer;
    copy = *parts;
    question.sequence = lent(&copy.sequence);
    question.key = spki_assume_key(lent(&copy.key));
    for (size_t place = 0; place < copy.word_count; place++)
        words[place] = lent(&copy.words[place]);
    if (copy.is_worded) {
        question.words = words;
        question.word_count = copy.word_count;
    } else {
        question.request = lent(&copy.request);
    }
    if (copy.is_in_seconds)
        question.seconds = &copy.seconds;
    else
        question.moment = lent(&copy.moment);
    call_without_memory(in, call_guard_ask, &with);
    spki_asked_close(asked);
    answer = do_call(call_guard_ask, &with, ROOM);
    expect(answer.status == SPKI_DONE || answer.status == SPKI_REFUSED, "a question is misuse");
    tell_of_answer(&answer);
    free(answer.octets);
    memset(&copy, 0xff, sizeof copy);
    spki_guard_close(guard);
    if (asked)
        decide(in, parts, asked, policy);
    spki_asked_close(asked);
}

/* Makes parts of one input, spoils some of them, writes each in some form, opens a guard and asks it. The last three limits are each 10,000, mostly
 * enough, or by the input below 1,000, where 0 is the usual limit. A request or moment given as strings or in seconds is not spoiled (`others` is
 * true then): in the case that `compare_with_case` makes, its text must mean the same. */
int LLVMFuzzerTestOneInput(const uint8_t *data, size_t size)
{
    static struct parts parts;
    struct input in = {data, size};
    struct text *const texts[] = {&parts.list, &parts.sequence, &parts.key, &parts.request, &parts.moment};
    unsigned *const others[] = {NULL, NULL, NULL, &parts.is_worded, &parts.is_in_seconds};
    struct spki_limits limits = SPKI_USUAL_LIMITS;
    spki_guard *guard = NULL;
    struct guard_args with = {{0}, (enum spki_policy)below(&in, 2), &limits, &guard};
    struct answer answer;
    limits.nodes = mostly(&in, 200, 20) * 50;
    limits.work = mostly(&in, 200, 20) * 50;
    limits.answer = mostly(&in, 200, 20) * 50;
    make_parts(&in, &parts);
    for (size_t place = 0; place < sizeof texts / sizeof *texts; place++) {
        if (!others[place] || !*others[place])
            spoil(&in, texts[place]);
        convert(&in, texts[place]);
    }
    with.list = lent(&parts.list);
    call_without_memory(&in, call_guard_open, &with);
    spki_guard_close(guard);
    answer = do_call(call_guard_open, &with, ROOM);
    expect(answer.status == SPKI_DONE || answer.status == SPKI_REFUSED, "a list is misuse");
    tell_of_answer(&answer);
    free(answer.octets);
    if (guard)
        ask(&in, &parts, guard, with.policy);
    return 0;
}
