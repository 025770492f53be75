/* Lets clients read packages, by signed requests. Usage: service ACL NAME, behind a server with TLS. */
#define _DEFAULT_SOURCE
#include "http_request.h"

#include <netinet/in.h>
#include <signal.h>
#include <stdio.h>
#include <sys/time.h>
#include <time.h>
#include <unistd.h>

enum { MOST_HEAD = 65536, MOST_LIST = 1048576, MOST_FIELDS = 64, MOST_NONCES = 100000, TIMEOUT_SECONDS = 5 };

/* Whether `head`, a C string, which is cut into its parts here, is a GET whose signer may read its path. Nobody may read one with `%`, `?`, `//` or
 * `/.` in it. */
static bool is_granted(const spki_guard *guard, const struct http_service *service, char *head)
{
    struct http_field fields[MOST_FIELDS];
    struct http_request request;
    struct http_proof proof;
    const int64_t now = time(NULL);
    if (!http_request_read(head, fields, MOST_FIELDS, &request) || http_request_check(service, &request, now, &proof) != NULL)
        return false;
    const char *path = request.target.octets;
    if (strcmp(request.method.octets, "GET") != 0 || strpbrk(path, "%?") || strstr(path, "//") || strstr(path, "/."))
        return false;
    const struct spki_text words[] = {SPKI_LITERAL("packages"), SPKI_LITERAL("read"), request.target};
    const struct spki_question question = {.size = sizeof question, .sequence = proof.sequence, .key = http_proven_key(&proof), .words = words,
                                           .word_count = 3, .seconds = &now};
    /* (the nonce is taken only for a yes: strangers could fill the store of nonces) */
    return verify_decides(guard, &question).status == SPKI_YES && http_proof_take(service, &proof, now) == NULL;
}

/* Reads until the empty line that ends a head, or until the stream ends, fails, times out or fills the buffer. `head` is a C string then. */
static void read_head(int client, char head[MOST_HEAD])
{
    ssize_t length = 0, count;
    head[0] = '\0';
    while (!strstr(head, "\r\n\r\n") && (count = read(client, head + length, (size_t)(MOST_HEAD - 1 - length))) > 0) {
        length += count;
        head[length] = '\0';
    }
}

/* Listens on a free port of loopback, prints it, and answers clients one by one. The exit status is 2 without a port or list, 1 if it ends later. */
int main(int argc, char **argv)
{
    static char list[MOST_LIST + 1], head[MOST_HEAD]; /* (the guard refuses a list that fills it: one octet more than any may have) */
    struct sockaddr_in address = {.sin_family = AF_INET, .sin_addr = {htonl(INADDR_LOOPBACK)}};
    socklen_t size = sizeof address;
    const int listener = socket(AF_INET, SOCK_STREAM, 0);
    FILE *file = argc == 3 ? fopen(argv[1], "rb") : NULL;
    spki_guard *guard;
    if (!file || spki_guard_open(list, fread(list, 1, sizeof list, file), SPKI_STRICT, NULL, &guard, NULL, 0, NULL) != SPKI_DONE
        || bind(listener, (struct sockaddr *)&address, size) || listen(listener, 16) || getsockname(listener, (struct sockaddr *)&address, &size))
        return 2;
    const struct spki_text name = {argv[2], strlen(argv[2])};
    const struct http_service service = {&name, 1, time(NULL), http_nonces_take, http_nonces_open(MOST_NONCES)};
    signal(SIGPIPE, SIG_IGN);
    dprintf(STDOUT_FILENO, "%d\n", ntohs(address.sin_port));
    for (int client; service.store && (client = accept(listener, NULL, NULL)) >= 0; close(client)) {
        setsockopt(client, SOL_SOCKET, SO_RCVTIMEO, &(struct timeval){.tv_sec = TIMEOUT_SECONDS}, sizeof(struct timeval));
        read_head(client, head);
        dprintf(client, "HTTP/1.1 %s\r\nContent-Length: 0\r\nConnection: close\r\n\r\n",
                is_granted(guard, &service, head) ? "200 OK" : "403 Forbidden");
    }
    return 1;
}
