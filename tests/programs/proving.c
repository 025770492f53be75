/* Proves requests by examples/c/http_request.c. Reads strings LENGTH:OCTETS from standard input, for each request: the method, the authority, the
 * target, the time (seconds since 1970), how many seconds before the same came, `1` if it has a body that no field says (either may be empty), the
 * number of fields, and each name and value. Writes a line for each: the refusal, or `valid` and the body's digest in hexadecimal digits. Ends with 1
 * without memory, for too few or too many fields, if the earlier one is refused, another key is proved, a check uses up a nonce, or one is taken
 * twice, late, or from an earlier time than that of its proof. */
#include "http_request.h"
#include "read_string.h"

enum { MOST_FIELDS = 64 };
/* The strings of a request before its fields. */
enum { METHOD, AUTHORITY, TARGET, TIME, BEFORE, BODY, FIELD_COUNT, HEAD };

/* Reads `count` strings. False if one of them is not there. */
static bool read_strings(struct spki_text *strings, size_t count)
{
    for (; count > 0 && read_string(strings); count--)
        strings++;
    return count == 0;
}

/* Frees what read_strings has read. */
static void free_strings(struct spki_text *strings, size_t count)
{
    while (count > 0)
        free((void *)strings[--count].octets);
}

/* Null if a request proves a key, and its nonce is taken, at a time. Otherwise the name of the refusal. */
static const char *refusal_of(const struct http_service *service, const struct http_request *request, long long now, struct http_proof *proof)
{
    const char *why = http_request_check(service, request, now, proof);
    return why ? why : http_proof_take(service, proof, now);
}

/* A store for `take` that only sets `*store`, a long long, to the time from which the nonce is to be kept. */
static const char *note_time(void *store, struct spki_text key, struct spki_text nonce, long long now, long long seconds)
{
    *(long long *)store = now;
    return key.length > 0 && nonce.length > 0 && seconds == 360 ? NULL : "store-full";
}

/* Whether the nonce of a request that was proved at `now` is kept from then if the clock has gone back by 200 seconds since, and is not taken 1,000
 * seconds later, when its signature has ended. */
static bool is_taken_in_time(const struct http_service *service, const struct http_proof *proof, long long now)
{
    long long kept_from = 0;
    struct http_service noting = *service;
    noting.take = note_time;
    noting.store = &kept_from;
    bool is_kept = http_proof_take(&noting, proof, now - 200) == NULL && kept_from == now;
    const char *late = http_proof_take(&noting, proof, now + 1000);
    return is_kept && kept_from == now && late && strcmp(late, "expired") == 0;
}

/* Writes the line for a request of `count` fields: `head` has its strings before them, and `of_fields` the name and the value of each. If the request
 * has a time before, it must be valid then too. A valid one must be valid to a check again, and refused when its nonce is taken again, also after
 * another nonce of 1,000 seconds later. */
static void answer(const struct spki_text *head, struct spki_text *of_fields, size_t count)
{
    const struct spki_text names[] = {SPKI_LITERAL("example.com")};
    struct http_field *fields = malloc((count + 1) * sizeof *fields); /* (one more, so that it is never without octets) */
    struct http_service service = {names, 1, 1792000000, http_nonces_take, http_nonces_open(4)}; /* (its start as in the table; room for 4 nonces) */
    struct http_request request = {head[METHOD], head[AUTHORITY], head[TARGET], fields, count, head[BODY].length > 0};
    struct http_proof proof = {.digest_length = 0};
    long long now = atoll(head[TIME].octets);
    if (!fields || !service.store)
        exit(1);
    for (size_t i = 0; i < count; i++)
        fields[i] = (struct http_field){of_fields[2 * i], of_fields[2 * i + 1]};
    if (head[BEFORE].length && refusal_of(&service, &request, now - atoll(head[BEFORE].octets), &proof))
        exit(1);
    const char *why = refusal_of(&service, &request, now, &proof);
    if (!why && (http_proven_key(&proof).text.octets != proof.key || http_request_check(&service, &request, now, &proof)
                 || !http_proof_take(&service, &proof, now) || !is_taken_in_time(&service, &proof, now)
                 || http_nonces_take(service.store, head[METHOD], head[METHOD], now + 1000, 360) || !refusal_of(&service, &request, now, &proof)))
        exit(1);
    printf("%s ", why ? why : "valid");
    for (size_t i = 0; !why && i < proof.digest_length; i++)
        printf("%02x", proof.digest[i]);
    puts("");
    free(fields);
    http_nonces_close(service.store);
}

int main(void)
{
    struct spki_text head[HEAD], of_fields[2 * MOST_FIELDS];
    while (read_strings(head, HEAD)) {
        size_t count = (size_t)atoll(head[FIELD_COUNT].octets);
        if (count > MOST_FIELDS || !read_strings(of_fields, 2 * count))
            return 1;
        answer(head, of_fields, count);
        free_strings(of_fields, 2 * count);
        free_strings(head, HEAD);
    }
    return feof(stdin) ? 0 : 1;
}
