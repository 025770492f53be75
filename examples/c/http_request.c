/* http_request.h says what it is for. Nothing is copied but the key, the digest, the signature and the signed text.
 *
 * By RFC 9421 a request has the fields `Signature-Input: spki=("@method" "x-a" ..);created=1;..` and `Signature: spki=:BASE64:`. Here `spki` is the
 * label, the strings name the components that the signature covers, parts of the request as its method or a field, and parameters follow.
 *
 * A function that returns `const char *` returns null or the name of a refusal, unless its comment says otherwise. */
#include "http_request.h"

#include <stdlib.h>

/* The most octets of a field that is taken apart, names of components in it, digits of a number, octets of a key in transport form and of a
 * signature (that of RSA with 4,096 bits), and the octets of a signature by P-384. */
enum { MOST_INPUT = 8192, MOST_COMPONENTS = 32, MOST_DIGITS = 15, MOST_KEY_TEXT = 4096, MOST_SIGNATURE = 512, P384_OCTETS = 96 };
/* The most seconds from `created` to `expires`, those that a client's clock may be ahead, and the characters of a nonce. */
enum { MOST_WINDOW = 300, MOST_AHEAD = 60, LEAST_NONCE = 16, MOST_NONCE = 64 };
/* The parameters, in the order of `parameter_names`. */
enum { CREATED, EXPIRES, NONCE, KEYID, ALG, TAG, PARAMETERS };

static const char *const parameter_names[PARAMETERS] = {"created", "expires", "nonce", "keyid", "alg", "tag"};
static const char *const derived[] = {"@method", "@authority", "@target-uri", "@path", "@query"};
static const char malformed[] = "malformed", authorization[] = "authorization", sequence[] = "x-spki-sequence", body_digest[] = "content-digest";
static const char public_key[] = "x-spki-public-key";

/* The value of `Signature-Input`. `text` is that of `@signature-params`, as it was sent. `components` has `count` names. `strings` has the values of
 * the parameters from NONCE to TAG at their places, and those of the first two are `created` and `expires`. */
struct input {
    struct spki_text text, components[MOST_COMPONENTS], strings[PARAMETERS];
    size_t count;
    long long created, expires;
};

/* Octets that are taken apart from the left. */
struct cursor {
    const unsigned char *at, *end;
};

/* ---- texts */

/* A C string as a text. */
static struct spki_text literal(const char *text)
{
    return (struct spki_text){text, strlen(text)};
}

/* Whether a text equals a C string, which has no octet 00 inside. */
static bool is_text(struct spki_text text, const char *wanted)
{
    return text.length == strlen(wanted) && (text.length == 0 || memcmp(text.octets, wanted, text.length) == 0);
}

/* A letter of ASCII in lower case. Any other octet is returned as it is. */
static unsigned char lower_case(unsigned char octet)
{
    return octet >= 'A' && octet <= 'Z' ? (unsigned char)(octet | 0x20) : octet;
}

/* Whether two texts are equal, but for the case of letters. */
static bool equals_ignoring_case(struct spki_text text, struct spki_text wanted)
{
    const unsigned char *first = text.octets, *second = wanted.octets;
    for (size_t i = 0; text.length == wanted.length && i < text.length; i++)
        if (lower_case(first[i]) != lower_case(second[i]))
            return false;
    return text.length == wanted.length;
}

/* The octets from `first` up to `end`, as a text. */
static struct spki_text between(const unsigned char *first, const unsigned char *end)
{
    return (struct spki_text){first, (size_t)(end - first)};
}

/* A value without the spaces and tabs around it. */
static struct spki_text trimmed(struct spki_text value)
{
    const unsigned char *first = value.octets, *end = first + value.length;
    while (first != end && (*first == ' ' || *first == '\t'))
        first++;
    while (first != end && (end[-1] == ' ' || end[-1] == '\t'))
        end--;
    return between(first, end);
}

/* Whether a component is among those that the signature covers, by its name. */
static bool covers(const struct input *input, const char *name)
{
    for (size_t i = 0; i < input->count; i++)
        if (is_text(input->components[i], name))
            return true;
    return false;
}

/* ---- base64 */

/* The number of a digit of base64, or -1. */
static int six_bits(unsigned char octet)
{
    static const char digits[] = "ABCDEFGHIJKLMNOPQRSTUVWXYZabcdefghijklmnopqrstuvwxyz0123456789+/";
    const char *place = octet ? strchr(digits, octet) : NULL;
    return place ? (int)(place - digits) : -1;
}

/* Decodes base64 with its padding into `octets`, and sets `length` to their number. False if the text is no base64, is not the one text of its
 * octets, or has more octets than `room`. In the code, the lowest `count` of `bits` are those that are not in an octet yet, and the others are 0. */
static bool decode_base64(struct spki_text text, unsigned char *octets, size_t room, size_t *length)
{
    const unsigned char *in = text.octets;
    size_t padding = 0;
    unsigned bits = 0, count = 0;
    *length = 0;
    while (padding < 2 && padding < text.length && in[text.length - 1 - padding] == '=')
        padding++;
    if (text.length % 4 != 0)
        return false;
    for (size_t i = 0; i < text.length - padding; i++) {
        int six = six_bits(in[i]);
        if (six < 0)
            return false;
        bits = bits << 6 | (unsigned)six;
        if ((count += 6) < 8)
            continue;
        if (*length == room)
            return false;
        count -= 8;
        octets[(*length)++] = (unsigned char)(bits >> count);
        bits &= (1U << count) - 1;
    }
    return bits == 0;
}

/* ---- fields of RFC 8941, as strictly as they are written */

/* Moves the cursor behind a text if that is next, and returns whether it was. */
static bool try_skip(struct cursor *in, const char *text)
{
    size_t length = strlen(text);
    bool is_next = (size_t)(in->end - in->at) >= length && memcmp(in->at, text, length) == 0;
    in->at += is_next ? length : 0;
    return is_next;
}

/* Reads the name of a member or of a parameter. It is empty if none is next. */
static struct spki_text read_name(struct cursor *in)
{
    const unsigned char *first = in->at;
    for (; in->at != in->end; in->at++) {
        unsigned char octet = *in->at;
        bool is_first = (octet >= 'a' && octet <= 'z') || octet == '*';
        bool is_later = (octet >= '0' && octet <= '9') || octet == '_' || octet == '-' || octet == '.';
        if (!is_first && !(is_later && in->at != first))
            break;
    }
    return between(first, in->at);
}

/* Reads a string in quotes, and returns whether one is next. An escape is refused: nothing in the profile needs one. */
static bool read_string(struct cursor *in, struct spki_text *string)
{
    if (!try_skip(in, "\""))
        return false;
    const unsigned char *first = in->at;
    while (in->at != in->end && *in->at >= ' ' && *in->at <= '~' && *in->at != '"' && *in->at != '\\')
        in->at++;
    *string = between(first, in->at);
    return try_skip(in, "\"");
}

/* Reads a number of at most MOST_DIGITS digits, without zeros before it, and returns whether one is next. (One digit more is read, which shows that
 * the number is too long, and fits a long long.) */
static bool read_integer(struct cursor *in, long long *number)
{
    const unsigned char *first = in->at;
    *number = 0;
    for (; in->at != in->end && *in->at >= '0' && *in->at <= '9' && in->at - first <= MOST_DIGITS; in->at++)
        *number = 10 * *number + (*in->at - '0');
    ptrdiff_t digits = in->at - first;
    return digits > 0 && digits <= MOST_DIGITS && (digits == 1 || *first != '0');
}

/* Sets the cursor to what follows the label and its `=`. The label must be `spki`, and the value have at most MOST_INPUT octets. Returns null, or the
 * name of the refusal. */
static const char *read_label(struct spki_text value, struct cursor *in)
{
    const unsigned char *first = value.octets;
    *in = (struct cursor){first, first + value.length};
    struct spki_text name = read_name(in);
    if (value.length > MOST_INPUT || name.length == 0 || !try_skip(in, "="))
        return malformed;
    return is_text(name, "spki") ? NULL : "other-label";
}

/* Null if nothing follows what was read. Otherwise the name of the refusal: a comma begins a second signature, and all else is malformed. */
static const char *expect_end(struct cursor in)
{
    if (in.at == in.end)
        return NULL;
    while (in.at != in.end && (*in.at == ' ' || *in.at == '\t'))
        in.at++;
    return try_skip(&in, ",") ? "two-signatures" : malformed;
}

/* Whether an octet may be in a token of HTTP. */
static bool is_token_octet(unsigned char octet)
{
    return (lower_case(octet) >= 'a' && lower_case(octet) <= 'z') || (octet >= '0' && octet <= '9') || (octet && strchr("!#$%&'*+-.^_`|~", octet));
}

/* Whether a component of this name may be covered: one of `derived`, or a field in small letters, but neither `signature` nor `signature-input`.
 * Whether the request has the field is not tested. */
static bool is_component(struct spki_text name)
{
    const unsigned char *octets = name.octets;
    for (size_t i = 0; i < sizeof derived / sizeof *derived; i++)
        if (is_text(name, derived[i]))
            return true;
    for (size_t i = 0; i < name.length; i++)
        if (!is_token_octet(octets[i]) || octets[i] != lower_case(octets[i]))
            return false;
    return name.length > 0 && !is_text(name, "signature") && !is_text(name, "signature-input");
}

/* Reads the list of the names of components, in parentheses, into `input`, which has none yet. Returns null, or the name of the refusal. */
static const char *read_components(struct cursor *in, struct input *input)
{
    if (!try_skip(in, "("))
        return malformed;
    while (!try_skip(in, ")")) {
        struct spki_text name;
        if (input->count == MOST_COMPONENTS || (input->count > 0 && !try_skip(in, " ")) || !read_string(in, &name))
            return malformed;
        /* (a `;` begins a parameter of the component, and none is supported) */
        if (!is_component(name) || (in->at != in->end && *in->at == ';'))
            return "unknown-component";
        for (size_t i = 0; i < input->count; i++)
            if (name.length == input->components[i].length && memcmp(name.octets, input->components[i].octets, name.length) == 0)
                return "component-twice";
        input->components[input->count++] = name;
    }
    return NULL;
}

/* Reads the parameters up to the end of the field. Returns null, or the name of the refusal, also if a component or parameter is missing. `place` is
 * that of a parameter in parameter_names, and `seen` has a bit for each place that was read. */
static const char *read_parameters(struct cursor *in, struct input *input)
{
    unsigned seen = 0;
    while (try_skip(in, ";")) {
        struct spki_text name = read_name(in);
        unsigned place = 0;
        while (place < PARAMETERS && !is_text(name, parameter_names[place]))
            place++;
        if (name.length == 0 || place == PARAMETERS)
            return name.length == 0 ? malformed : "unknown-parameter";
        if (seen & 1U << place)
            return "parameter-twice";
        seen |= 1U << place;
        long long *number = place == CREATED ? &input->created : &input->expires;
        if (!try_skip(in, "=") || !(place <= EXPIRES ? read_integer(in, number) : read_string(in, &input->strings[place])))
            return malformed;
    }
    const char *why = expect_end(*in);
    if (why)
        return why;
    bool has_target = covers(input, "@target-uri") || (covers(input, "@path") && covers(input, "@query"));
    if (!has_target || !covers(input, "@method") || !covers(input, "@authority") || !covers(input, public_key))
        return "missing-component";
    return seen == (1U << PARAMETERS) - 1 ? NULL : "missing-parameter";
}

/* Reads the value of `Signature-Input`. Returns null, or the name of the refusal. */
static const char *read_input(struct spki_text value, struct input *input)
{
    struct cursor in;
    const char *why = read_label(value, &in);
    if (why)
        return why;
    *input = (struct input){.text = between(in.at, in.end)};
    why = read_components(&in, input);
    return why ? why : read_parameters(&in, input);
}

/* Reads octets between colons, in base64, into `octets`, and sets `length` to their number. Returns whether they are next and fit in `room`. */
static bool read_octets(struct cursor *in, unsigned char *octets, size_t room, size_t *length)
{
    if (!try_skip(in, ":"))
        return false;
    const unsigned char *first = in->at;
    while (in->at != in->end && *in->at != ':')
        in->at++;
    return decode_base64(between(first, in->at), octets, room, length) && try_skip(in, ":");
}

/* Reads the octets that `Signature` has, also if they are too many for every algorithm: check_message refuses that. Returns null, or the name of the
 * refusal. */
static const char *read_signature(struct spki_text value, unsigned char octets[MOST_INPUT], size_t *length)
{
    struct cursor in;
    const char *why = read_label(value, &in);
    if (why)
        return why;
    return read_octets(&in, octets, MOST_INPUT, length) ? expect_end(in) : malformed;
}

/* ---- the request */

/* The number of lines that a field has. Sets `value`, unless it is null or there is no such line, to the value in the first of them. */
static size_t count_lines(const struct http_request *request, struct spki_text name, struct spki_text *value)
{
    size_t count = 0;
    for (size_t i = 0; i < request->field_count; i++)
        if (equals_ignoring_case(request->fields[i].name, name) && count++ == 0 && value)
            *value = trimmed(request->fields[i].value);
    return count;
}

/* Sets `value` to that of a field, which must be there in one line of printable ASCII and tabs. Returns null, or the name of the refusal. */
static const char *read_field(const struct http_request *request, struct spki_text name, struct spki_text *value)
{
    const size_t count = count_lines(request, name, value);
    if (count != 1)
        return count == 0 ? "absent-field" : "repeated-field";
    const unsigned char *octets = value->octets;
    for (size_t i = 0; i < value->length; i++)
        if (octets[i] != '\t' && (octets[i] < ' ' || octets[i] > '~'))
            return "bad-value";
    return NULL;
}

/* Whether a text is a token of HTTP, as are a method and the name of a field. */
static bool is_token(struct spki_text text)
{
    const unsigned char *octets = text.octets;
    for (size_t i = 0; i < text.length; i++)
        if (!is_token_octet(octets[i]))
            return false;
    return text.length > 0;
}

/* Whether a target is a path, perhaps with a query, of visible characters of ASCII without `#`. */
static bool is_target(struct spki_text target)
{
    const unsigned char *octets = target.octets;
    for (size_t i = 0; i < target.length; i++)
        if (octets[i] <= ' ' || octets[i] > '~' || octets[i] == '#')
            return false;
    return target.length > 0 && octets[0] == '/';
}

/* The name of the service that a request is for, as `service` has it, or null if it has no such name. The port 443 of the request is left out. */
static const struct spki_text *authority_of(const struct http_service *service, const struct http_request *request)
{
    struct spki_text name = request->authority, port = SPKI_LITERAL(":443");
    const unsigned char *octets = name.octets;
    if (name.length >= port.length && memcmp(octets + name.length - port.length, port.octets, port.length) == 0)
        name.length -= port.length;
    for (size_t i = 0; i < service->name_count; i++)
        if (name.length > 0 && equals_ignoring_case(name, service->names[i]))
            return &service->names[i];
    return NULL;
}

/* Whether the body may have octets, so that its digest must be covered: `has_body` or a field says so, or the method is neither GET nor HEAD. */
static bool may_have_body(const struct http_request *request)
{
    for (size_t i = 0; i < request->field_count; i++)
        if (equals_ignoring_case(request->fields[i].name, literal("content-length")) && !is_text(trimmed(request->fields[i].value), "0"))
            return true;
    bool is_get_or_head = is_text(request->method, "GET") || is_text(request->method, "HEAD");
    return request->has_body || !is_get_or_head || count_lines(request, literal("transfer-encoding"), NULL) > 0;
}

/* ---- the signed text */

/* What is written: `length` octets at `octets`. If `octets` is null, they are only counted, to know how much room they need. */
struct writer {
    unsigned char *octets;
    size_t length;
};

/* Writes a text behind what `out` has. There must be room for it. */
static void write_text(struct writer *out, struct spki_text text)
{
    if (out->octets && text.length)
        memcpy(out->octets + out->length, text.octets, text.length);
    out->length += text.length;
}

/* Writes the value of a component by its name. `authority` is the service's name, as authority_of returns it. The scheme is https: unlike in Go and
 * Python a service has no setting for http. Returns null, or the name of the refusal of a field that cannot be read. */
static const char *write_value(struct writer *out, const struct http_request *request, struct spki_text authority, struct spki_text name)
{
    struct spki_text target = request->target, value;
    const unsigned char *first = target.octets, *query = memchr(first, '?', target.length), *end = first + target.length;
    const char *why = NULL;
    if (is_text(name, "@method")) {
        write_text(out, request->method);
    } else if (is_text(name, "@authority")) {
        write_text(out, authority);
    } else if (is_text(name, "@path")) {
        write_text(out, between(first, query ? query : end));
    } else if (is_text(name, "@query")) {
        write_text(out, query ? between(query, end) : literal("?"));
    } else if (is_text(name, "@target-uri")) {
        write_text(out, literal("https://"));
        write_text(out, authority);
        write_text(out, target);
    } else if (!(why = read_field(request, name, &value))) {
        write_text(out, value);
    }
    return why;
}

/* Writes the signature base of RFC 9421: the text that is signed. `authority` is as in write_value. Returns null, or the name of the refusal. */
static const char *write_base(struct writer *out, const struct http_request *request, struct spki_text authority, const struct input *input)
{
    for (size_t i = 0; i < input->count; i++) {
        write_text(out, literal("\""));
        write_text(out, input->components[i]);
        write_text(out, literal("\": "));
        const char *why = write_value(out, request, authority, input->components[i]);
        if (why)
            return why;
        write_text(out, literal("\n"));
    }
    write_text(out, literal("\"@signature-params\": "));
    write_text(out, input->text);
    return NULL;
}

/* ---- keys and signatures, as docs/FORMATS.md has them */

/* Reads a key in transport form, `{BASE64}`, into the proof. Returns the name of its algorithm, and sets how many octets its signatures have. Null if
 * the text is no key of these four forms. The numbers of the key are not tested: the verifier does that. */
static const char *read_key(struct spki_text text, struct http_proof *proof, size_t *signature_length)
{
    const unsigned char *in = text.octets;
    if (text.length < 2 || text.length > MOST_KEY_TEXT || in[0] != '{' || in[text.length - 1] != '}')
        return NULL;
    if (!decode_base64(between(in + 1, in + text.length - 1), proof->key, sizeof proof->key, &proof->key_length))
        return NULL;
    struct spki_text key = {proof->key, proof->key_length}, strings[2];
    *signature_length = (size_t)2 * VERIFY_HALF;
    if (verify_has_form(key, "(10:public-key(3:ecc(5:curve7:Ed25519)(5:flags5:eddsa)(1:q%)))", strings))
        return "ed25519";
    if (verify_has_form(key, "(10:public-key(3:ecc(5:curve10:NIST P-256)(1:q%)))", strings))
        return "ecdsa-p256-sha256";
    *signature_length = P384_OCTETS;
    if (verify_has_form(key, "(10:public-key(3:ecc(5:curve10:NIST P-384)(1:q%)))", strings))
        return "ecdsa-p384-sha384";
    if (!verify_has_form(key, "(10:public-key(3:rsa(1:n%)(1:e%)))", strings))
        return NULL;
    *signature_length = verify_trimmed(strings[0]).length;
    return "rsa-v1_5-sha256";
}

/* Writes a string in canonical form, LENGTH:OCTETS. */
static void write_string(struct writer *out, struct spki_text string)
{
    /* (a half of a signature, or one by RSA, has at most 512 octets, so there is room for the digits and the colon) */
    char digits[8];
    size_t at = sizeof digits;
    digits[--at] = ':';
    for (size_t length = string.length; at == sizeof digits - 1 || length > 0; length /= 10)
        digits[--at] = (char)('0' + length % 10);
    write_text(out, (struct spki_text){digits + at, sizeof digits - at});
    write_text(out, string);
}

/* Writes the canonical value, `(7:sig-val..)`, of the octets that `Signature` has. With RSA they are one string of it, else two halves. */
static void write_signature(struct writer *out, struct spki_text algorithm, struct spki_text octets)
{
    const unsigned char *first = octets.octets, *half = first + octets.length / 2;
    if (is_text(algorithm, "rsa-v1_5-sha256")) {
        write_text(out, literal("(7:sig-val(3:rsa(1:s"));
        write_string(out, octets);
    } else {
        write_text(out, literal(is_text(algorithm, "ed25519") ? "(7:sig-val(5:eddsa(1:r" : "(7:sig-val(5:ecdsa(1:r"));
        write_string(out, between(first, half));
        write_text(out, literal(")(1:s"));
        write_string(out, between(half, first + octets.length));
    }
    write_text(out, literal(")))"));
}

/* ---- the tests */

/* Checks the tag, the length of the nonce, and the times. Returns null, or the name of the refusal. */
static const char *check_parameters(const struct http_service *service, const struct input *input, long long now)
{
    if (!is_text(input->strings[TAG], "spki"))
        return "other-tag";
    if (input->strings[NONCE].length < LEAST_NONCE || input->strings[NONCE].length > MOST_NONCE)
        return "bad-nonce";
    if (input->expires <= input->created || input->expires > input->created + MOST_WINDOW)
        return "bad-window";
    if (input->created > now + MOST_AHEAD)
        return "too-early";
    if (input->expires <= now)
        return "expired";
    return input->created < service->start ? "before-start" : NULL;
}

/* Reads the value of `Content-Digest`, one digest by SHA-256 (32 octets) or SHA-512 (64), into the proof. Returns null, or the refusal's name. */
static const char *read_digest(struct spki_text value, struct http_proof *proof)
{
    const unsigned char *first = value.octets;
    struct cursor in = {first, first + value.length};
    size_t length = try_skip(&in, "sha-256=") ? 32 : try_skip(&in, "sha-512=") ? 64 : 0;
    bool is_read = length && read_octets(&in, proof->digest, sizeof proof->digest, &proof->digest_length) && in.at == in.end;
    return is_read && proof->digest_length == length ? NULL : "bad-digest";
}

/* Checks that the signature covers the fields on which the answer depends, if they are there, and the digest of a body, which it reads into the
 * proof. Returns null, or the name of the refusal. */
static const char *check_coverage(const struct http_request *request, const struct input *input, struct http_proof *proof)
{
    const char *const names[] = {authorization, sequence, body_digest};
    struct spki_text value;
    for (size_t i = 0; i < sizeof names / sizeof *names; i++)
        if (count_lines(request, literal(names[i]), NULL) > 0 && !covers(input, names[i]))
            return "uncovered-field";
    proof->digest_length = 0;
    if (!covers(input, body_digest))
        return may_have_body(request) ? "body-without-digest" : NULL;
    const char *why = read_field(request, literal(body_digest), &value);
    return why ? why : read_digest(value, proof);
}

/* Whether a text is this hash in hexadecimal digits. */
static bool is_hash(struct spki_text text, const unsigned char hash[VERIFY_HASH])
{
    static const char digits[] = "0123456789abcdef";
    char written[2 * VERIFY_HASH + 1] = "";
    for (size_t i = 0; i < VERIFY_HASH; i++) {
        written[2 * i] = digits[hash[i] >> 4];
        written[2 * i + 1] = digits[hash[i] & 15];
    }
    return is_text(text, written);
}

/* Reads the key, which must be that of `keyid` and `alg`, into the proof. Sets how many octets its signatures have. Returns null, the name of the
 * refusal, or "memory". */
static const char *check_key(const struct http_request *request, const struct input *input, struct http_proof *proof, size_t *signature_length)
{
    unsigned char hash[VERIFY_HASH];
    struct spki_text value;
    const char *why = read_field(request, literal(public_key), &value);
    if (why)
        return why;
    const char *algorithm = read_key(value, proof, signature_length);
    if (!algorithm)
        return "bad-key";
    if (!verify_hash((struct spki_text){proof->key, proof->key_length}, hash))
        return "memory";
    if (!is_hash(input->strings[KEYID], hash))
        return "other-key";
    return is_text(input->strings[ALG], algorithm) ? NULL : "other-algorithm";
}

/* Verifies the octets of a signature, at most MOST_SIGNATURE, whose message is the signature base. Returns null, or the name of the refusal. */
static const char *check_signature(struct spki_text key, struct spki_text algorithm, struct spki_text octets, struct writer *base)
{
    /* (what write_signature writes around the octets has fewer than 64 octets) */
    unsigned char text[MOST_SIGNATURE + 64];
    struct writer value = {text, 0};
    write_signature(&value, algorithm, octets);
    const struct spki_signed signature = {.key = key, .message = {base->octets, base->length}, .value = {text, value.length}};
    return verifies(&signature) ? NULL : "invalid-signature";
}

/* Tests the message, then its signature, whose octets are given, and sets the key and the digest of the proof. Returns null, the name of the refusal,
 * or "memory". The signature base is written twice: first only its octets are counted. */
static const char *check_message(const struct http_service *service, const struct http_request *request, const struct input *input,
                                 struct spki_text octets, struct http_proof *proof)
{
    struct writer counter = {NULL, 0};
    size_t signature_length = 0;
    if (!is_token(request->method) || !is_target(request->target))
        return is_token(request->method) ? "bad-target" : "bad-method";
    const struct spki_text *authority = authority_of(service, request);
    const char *why = authority ? write_base(&counter, request, *authority, input) : "other-authority";
    if (!why)
        why = check_coverage(request, input, proof);
    if (!why)
        why = check_key(request, input, proof, &signature_length);
    if (why)
        return why;
    if (octets.length != signature_length || octets.length > MOST_SIGNATURE)
        return "invalid-signature";
    struct writer base = {malloc(counter.length), 0};
    if (!base.octets)
        return "memory";
    write_base(&base, request, *authority, input);
    why = check_signature((struct spki_text){proof->key, proof->key_length}, input->strings[ALG], octets, &base);
    free(base.octets);
    return why;
}

/* Reads `Signature-Input`, and the octets of `Signature`. Returns null, or the name of the refusal. */
static const char *read_signature_fields(const struct http_request *request, struct input *input, unsigned char octets[MOST_INPUT], size_t *length)
{
    struct spki_text input_text, signature;
    size_t inputs = count_lines(request, literal("signature-input"), &input_text);
    size_t signatures = count_lines(request, literal("signature"), &signature);
    if (inputs + signatures == 0)
        return "absent";
    if (inputs > 1 || signatures > 1)
        return "repeated-field";
    if (inputs != signatures)
        return malformed;
    const char *why = read_input(input_text, input);
    return why ? why : read_signature(signature, octets, length);
}

/* The text of `*rest`, a C string, up to a mark, or all of it if there is none. Writes 00 in place of the mark, and sets `*rest` to what is behind
 * it. */
static struct spki_text cut(char **rest, const char *mark)
{
    char *first = *rest, *end = strstr(first, mark);
    *rest = end ? end + strlen(mark) : first + strlen(first);
    if (end)
        *end = '\0';
    return literal(first);
}

/* Parses the head of a request of HTTP/1.1, a C string that ends with its empty line, and cuts it into the texts of `request` and `fields`. False if
 * it is no head of at most `most` fields, each in one line, or has not exactly one `Host`, of printable ASCII and tabs. */
bool http_request_read(char *head, struct http_field *fields, size_t most, struct http_request *request)
{
    *request = (struct http_request){.method = cut(&head, " "), .fields = fields};
    request->target = cut(&head, " ");
    if (!is_token(request->method) || !is_target(request->target) || !is_text(cut(&head, "\r\n"), "HTTP/1.1"))
        return false;
    for (; *head && *head != '\r'; request->field_count++) {
        if (request->field_count == most)
            return false;
        fields[request->field_count].name = cut(&head, ":");
        fields[request->field_count].value = cut(&head, "\r\n");
        if (!is_token(fields[request->field_count].name))
            return false;
    }
    return strcmp(head, "\r\n") == 0 && read_field(request, literal("host"), &request->authority) == NULL;
}

/* Null if a request proves a key at a time, in seconds since 1970. Otherwise the name of the refusal, or "memory". With null the proof is set, and
 * the nonce of the request is not used up. */
const char *http_request_check(const struct http_service *service, const struct http_request *request, long long now, struct http_proof *proof)
{
    struct input input;
    struct http_proof checked = {.moment = now};
    unsigned char octets[MOST_INPUT];
    size_t length = 0;
    const char *why = read_signature_fields(request, &input, octets, &length);
    if (!why)
        why = check_parameters(service, &input, now);
    if (why)
        return why;
    /* (a request without certificates shows an empty sequence. That its field has only one line is tested with the message) */
    if (count_lines(request, literal(sequence), &checked.sequence) == 0)
        checked.sequence = literal("(sequence)");
    checked.nonce = input.strings[NONCE];
    checked.expires = input.expires;
    why = check_message(service, request, &input, (struct spki_text){octets, length}, &checked);
    if (!why)
        *proof = checked;
    return why;
}

/* Uses up the nonce of a proof at a time, in seconds since 1970, or at that of the proof if it is later: if the clock has gone back, a nonce that is
 * kept from `now` would be forgotten before the signature has ended. Returns null, or the name of the refusal. The nonce is kept as long as a
 * signature that is accepted now can be accepted. */
const char *http_proof_take(const struct http_service *service, const struct http_proof *proof, long long now)
{
    const long long moment = now < proof->moment ? proof->moment : now;
    if (proof->expires <= moment)
        return "expired"; /* (the nonce may have been used, and be forgotten) */
    return service->take(service->store, (struct spki_text){proof->key, proof->key_length}, proof->nonce, moment, MOST_WINDOW + MOST_AHEAD);
}
