"""Attacks on the examples of web servers: what is tried, who tries it, and the octets that are sent. None but those of GRANTED may be answered with
a status 2xx, or with the content of a file. Ann may read and write /web/, and the robot may write /web/out/. Eve has no right.

In the octets, {ann} is Ann's certificate as the server passes it, {key} the hash of her key, and {ben} the sequence by which Ann lets Ben read /web/.
The others are sequences that give nothing: see attackers.py. Lines end in CR LF (`request` and `raw` make them), but for one attack."""
import re
from collections.abc import Iterator
from typing import NamedTuple, Optional

from harness.web_servers import OTHER

# What is tried; by whom (None: without a certificate for TLS; two words: a file of keys/ with the certificate, and the key); and the octets.
Plain = tuple[str, Optional[str], bytes]
# The statuses that an answer may have. What is malformed, or too long, the web server may also refuse by itself, or without an answer (0). What is
# not there may be 404. The last ones are those of a server without its daemon.
DENIED = {401, 403}
MALFORMED = DENIED | {0, 100, 400, 405, 413, 414, 421, 422, 431, 501, 505}
TOO_LONG, ABSENT, UNCLEAR = MALFORMED | {500, 503}, DENIED | {404}, MALFORMED | {404}
WITHOUT_DAEMON = {500, 502, 503}
# The statuses of attacks, by their names, where these are not those of their group (`all_attacks`).
MUST = {
    "a folded line, by Eve": MALFORMED, "a space before the colon, by Eve": MALFORMED,
    "a header of 100 KiB": TOO_LONG, "a sequence over 64 KiB": TOO_LONG,
    **{f"the method {name!r}": MALFORMED for name in ("TRACE", "CONNECT", "get", "PUT\t", "G\0T")},
    **{name: MALFORMED for name in ("HTTP/0.9", "HTTP/1.0 without a host", "HTTP/3.7", "no version that is known", "another protocol")},
    **{f"the path {name!r}": ABSENT for name in (b"/web/INDEX.HTML", b"/.spki-authd", b"/web/link/plan.txt")},
    **{name: {401} for name in ("no certificate for TLS", "Ben's certificates by no key", "the server's header without TLS's certificate")},
    "a certificate for TLS that has ended": MALFORMED}
# What a server may grant, as the page of its example says. Only the key of a certificate for TLS counts, and nginx and Apache refuse one that has
# ended by themselves. Caddy follows links.
ENDED, LINK = "a certificate for TLS that has ended", "the path b'/web/link/plan.txt'"
GRANTED = {("caddy", ENDED), ("haproxy", ENDED), ("caddy", LINK)}
PLAIN_PATH = re.compile(r"/[\w./?=~-]*")


class Attack(NamedTuple):
    """An attack: what is tried, by whom (as in `Plain`), the octets that are sent, and the statuses of which the answer must have one."""

    what: str
    who: Optional[str]
    octets: bytes
    must: set[int]


WEB, PLAN = "/web/index.html", "/secret/plan.txt"


def request(path: str, *lines: str, method: str = "GET", body: str = "", version: str = "HTTP/1.1") -> bytes:
    """The octets of a request, with these lines added to its header."""
    length = [f"Content-Length: {len(body)}"] if body else []
    return "\r\n".join([f"{method} {path} {version}", "Host: localhost", "Connection: close", *lines, *length, "", body]).encode("latin-1")


def raw(text: str) -> bytes:
    """A text as it is sent, with CR LF at the end of its lines."""
    return text.replace("\n", "\r\n").encode("latin-1")


def attacks_by_headers() -> Iterator[Plain]:
    """Requests by Eve, who has no right, or for more than a client may, with headers that only a web server sets, or that ask for other handling."""
    for what, *lines in [
            ("Ann's certificate in the server's header", "X-Client-Cert: {ann}"),
            ("the same in lower case", "x-client-cert: {ann}"), ("the same with an underscore", "X_Client_Cert: {ann}"),
            ("the same twice", "X-Client-Cert: {ann}", "X-Client-Cert: {ann}"),
            ("the same for Traefik", "X-Forwarded-Tls-Client-Cert: {ann}"), ("the same for Envoy", "X-Forwarded-Client-Cert: Cert=\"{ann}\""),
            ("the variable of nginx", "Ssl-Client-Escaped-Cert: {ann}"), ("the hash of Ann's key", "X-Spki-Key: {key}"),
            ("the daemon's answer", "X-Spki-Answer: yes", "X-Spki-Entry: 1"), ("a secret", "X-Spki-Secret: 0123456789abcdef0123456789abcdef"),
            ("another path in the server's header", "X-Original-URI: /web/out/"),
            ("a path that is rewritten", "X-Original-URL: /web/", "X-Rewrite-URL: /web/"),
            ("the server's header named as of one hop", "Connection: close, X-Client-Cert, X-Original-URI"),
            ("an address within", "X-Forwarded-For: 127.0.0.1", "X-Real-IP: 127.0.0.1"), ("a folded line", "X-Folded: a", " X-Client-Cert: {ann}"),
            ("a space before the colon", "X-Client-Cert : {ann}"), ("an upgrade", "Upgrade: h2c", "HTTP2-Settings: AAMAAABkAAQAAP__")]:
        yield f"{what}, by Eve", "eve", request(WEB, *lines)
    yield "Ann's path, while the secret is asked for", "ann", request(PLAN, f"X-Original-URI: {WEB}")
    yield "the same for Caddy and Traefik", "ann", request(PLAN, f"X-Forwarded-Uri: {WEB}", "X-Forwarded-Method: GET")
    yield "a method in the server's header", "ben", request(WEB, "X-Original-Method: GET", "Authorization: SPKI {ben}", method="DELETE")
    yield "a method that overrides", "ben", request(WEB, "X-HTTP-Method-Override: GET", "Authorization: SPKI {ben}", method="PUT", body="ben")
    yield "the server's header without TLS's certificate", None, request(WEB, "X-Client-Cert: {ann}")


def attacks_by_doubled_parts() -> Iterator[Plain]:
    """Requests in which a header or all comes twice, a part is missing, malformed, too long or only announced, or an address stands for the path."""
    shown, basic = "Authorization: SPKI {ben}", "Authorization: Basic YW5uOmFubg=="
    yield "two headers with certificates, the first of another scheme", "ben", request(WEB, basic, shown)
    yield "two headers with certificates, the first of others", "ben", request(WEB, "Authorization: SPKI {ended}", shown)
    yield "certificates in both headers", "ben", request(WEB, shown, "X-Spki-Sequence: {ben}")
    yield "two sequences in one header", "ben", request(WEB, "Authorization: SPKI {ben}, SPKI {ben}")
    yield "two sequences side by side", "ben", request(WEB, "Authorization: SPKI {ben}{ben}")
    yield "two lengths", "eve", raw(f"PUT {WEB} HTTP/1.1\nHost: localhost\nContent-Length: 1\nContent-Length: 2\n\nab")
    second = f"GET {WEB} HTTP/1.1\nHost: localhost\nConnection: close\n\n"
    chunks = f"PUT {WEB} HTTP/1.1\nHost: localhost\nContent-Length: 5\nTransfer-Encoding: chunked\n\n0\n\n"
    yield "a length and chunks", "eve", raw(chunks + second)
    for coding in ("xchunked", "chunked, identity", "identity, chunked", "\x0bchunked"):
        yield f"the coding {coding!r}", "eve", raw(f"PUT {WEB} HTTP/1.1\nHost: localhost\nTransfer-Encoding: {coding}\n\n0\n\n")
    yield "a request in a body", "eve", request(WEB, method="PUT", body=f"GET {WEB} HTTP/1.1\r\nHost: localhost\r\n\r\n")
    short = f"GET {WEB} HTTP/1.1\nHost: localhost\nContent-Length: 3\n\nabc"
    yield "a request in a body that is too short", "ben", raw(short + second)
    yield "a second request behind one that is denied", "eve", raw(f"GET {WEB} HTTP/1.1\nHost: localhost\n\n") + request(WEB, "X-Client-Cert: {ann}")
    wrong = f"PUT {WEB} HTTP/1.1\nHost: localhost\nConnection: close\nTransfer-Encoding: chunked\n\nffffffffffffffff1\nab\n0\n\n"
    yield "a chunk with a wrong size", "eve", raw(wrong)
    yield "lines that end in a line feed alone", "eve", f"GET {WEB} HTTP/1.1\nHost: localhost\nX-Client-Cert: {{ann}}\nConnection: close\n\n".encode()
    yield "a carriage return in a header", "eve", request(WEB, "X-A: b\rX-Client-Cert: {ann}")
    yield "a zero octet in a header", "eve", request(WEB, "X-A: b\0X-Client-Cert: {ann}")
    yield "two hosts", "eve", request(WEB, "Host: files.example.org")
    yield "no host", "eve", raw(f"GET {WEB} HTTP/1.1\nConnection: close\n\n")
    yield "a header of 100 KiB", "ann", request(WEB, f"X-Spki-Sequence: {'a' * 102400}")
    yield "a sequence over 64 KiB", "ben", request(WEB, f"Authorization: SPKI {{{'A' * 68000}}}")
    yield "the whole address as path", "eve", request(f"https://localhost{WEB}")
    yield "the whole address of the secret", "ann", request(f"https://localhost{PLAN}")
    yield "a body that is announced", "ben", request(WEB, "Expect: 100-continue", shown, method="PUT", body="ben")


def attacks_by_methods() -> Iterator[Plain]:
    """Methods that the configuration does not name, methods without a right, versions of HTTP, and another protocol."""
    for method in ("POST", "PATCH", "OPTIONS", "TRACE", "CONNECT", "PROPFIND", "MKCOL", "get", "GETX", "G\0T"):
        yield f"the method {method!r}", "ann", request(WEB, method=method, body="x" if method == "POST" else "")
    yield "the method 'PUT\\t'", "ben", request(WEB, "Authorization: SPKI {ben}", method="PUT\t", body="ben")
    for method in ("MOVE", "COPY"):
        yield f"the method {method} out of Ann's folder", "ann", request(WEB, "Destination: https://localhost/secret/plan.txt", method=method)
    yield "HTTP/0.9", "eve", raw(f"GET {WEB}\n")
    yield "HTTP/1.0 without a host", "eve", raw(f"GET {WEB} HTTP/1.0\n\n")
    yield "HTTP/3.7", "eve", request(WEB, version="HTTP/3.7")
    yield "no version that is known", "eve", request(WEB, version="HTTP/x")
    yield "another protocol", "ann", b"\x16\x03\x01\x02\x00\x01\x00"  # (the beginning of a handshake of TLS)
    yield "writing with a right to read", "ben", request(WEB, "Authorization: SPKI {ben}", method="PUT", body="ben")
    yield "deleting with a right to read", "ben", request(WEB, "Authorization: SPKI {ben}", method="DELETE")
    yield "deleting a folder", "ann", request("/web/", method="DELETE")
    yield "deleting a folder without its slash", "ann", request("/web", method="DELETE")
    yield "reading with a right to write", "robot", request("/web/out/main.js")
    yield "writing beside the robot's folder", "robot", request(WEB, method="PUT", body="robot")
    yield "writing by a path out of the robot's folder", "robot", request("/web/out/../index.html", method="PUT", body="robot")
    yield "the same with escapes", "robot", request("/web/out/%2e%2e/index.html", method="PUT", body="robot")


PATHS = [
    "/web/../secret/plan.txt", "/web/%2e%2e/secret/plan.txt", "/web/.%2e/secret/plan.txt", "/web/%2E./secret/plan.txt", "/web/..%2fsecret/plan.txt",
    "/web/..%2Fsecret%2Fplan.txt", "/web/%2e%2e%2fsecret%2fplan.txt", "/web//../secret/plan.txt", "//secret/plan.txt", "/web//index.html",
    "/web/%252e%252e/secret/plan.txt", "/web/..%252fsecret/plan.txt", "/web/..;/secret/plan.txt", "/web/;/../../secret/plan.txt",
    "/web/%00/../../secret/plan.txt", "/web/index.html%00.txt", "/web/index.html%00", "/web\\..\\secret\\plan.txt", "/web/..\\secret\\plan.txt",
    "/web/..%5csecret%5cplan.txt", "/web/./index.html", "/web/%2e/index.html", "/web/index.html.", "/web/index.html%2e", "/web/index.html%20",
    "/web/index.html/", "/web/index.html/.", "/web/index.html/../../secret/plan.txt", "/WEB/index.html", "/Web/index.html", "/web/INDEX.HTML",
    "/web/%c0%ae%c0%ae/secret/plan.txt", "/web/%c0%af../secret/plan.txt", "/web/%e0%80%ae%e0%80%ae/secret/plan.txt",
    "/web/%u002e%u002e/secret/plan.txt", "/web/\xef\xbc\x8e\xef\xbc\x8e/secret/plan.txt", "/web/%EF%BC%8E%EF%BC%8E/secret/plan.txt",
    "/web/%E2%80%AE/index.html", "/web/i\xcc\x87ndex.html", "/web/%ff", "/web/%zz", "/web/%2", "/web/%", "/web", "/web/", "/", "", "*",
    "web/index.html", "/webs/../secret/plan.txt", "/web?/../secret/plan.txt", "/secret/plan.txt?/web/index.html", "/secret/plan.txt?x=/web/",
    "/secret/plan.txt#/web/", "/secret/plan.txt%23/web/", "/secret/plan.txt%3f/web/", "/%73ecret/plan.txt", "/./secret/plan.txt",
    "/../secret/plan.txt", "/web/../../etc/acl.sexp", "/../etc/server.key", "/web/../../../../../etc/passwd", "/.spki-authd", "/%2espki-authd",
    "/web/../.spki-authd", "/web/%0d%0aX-Spki-Answer:%20yes", "/web/%09index.html", "/web/%7f", "/web/link/plan.txt", "/web/" + "a" * 5000,
    "/web/" + "a/" * 2100 + "x", "/web/~ann/../../secret/plan.txt", "/web/index.html:$DATA", "/web/.../secret/plan.txt"]


def attacks_by_paths() -> Iterator[Plain]:
    """Ann, who may use only /web/, asks for what is elsewhere by paths that mostly begin with /web/, or by paths whose meaning is not clear."""
    for path in PATHS:
        yield f"the path {path.encode('latin-1')[:40]!r}", "ann", request(path)


def attacks_by_certificates() -> Iterator[Plain]:
    """Requests by clients without the key, or with certificates that are malformed or give no such right. `name` is one of `Attackers.sequences`."""
    yield "no certificate for TLS", None, request(WEB)
    yield "Ben's certificates by no key", None, request(WEB, "Authorization: SPKI {ben}")
    yield "Ben's certificates sent again by Eve's key", "eve", request(WEB, "Authorization: SPKI {ben}")
    yield "the same in the other header", "eve", request(WEB, "X-Spki-Sequence: {ben}")
    yield "a certificate for TLS in Ann's name by Eve's key", "named-ann.crt eve", request(WEB)
    yield "Ann's certificate for TLS behind Eve's", "both.crt eve", request(WEB)
    yield "a certificate for TLS that has ended", "old.crt ben", request(WEB, "Authorization: SPKI {ben}")
    yield "a key of a kind that is not used", "p521", request(WEB, "Authorization: SPKI {ben}")
    for name, what in [
            ("ended", "a certificate that has ended"), ("early", "a certificate that is not yet valid"), ("tag", "a tag that was changed"),
            ("value", "a signature that was changed"), ("subject", "a subject that was changed"), ("own", "a certificate by Ben himself"),
            ("signer", "Ben's signature under a certificate in Ann's name"), ("secret", "a right that Ann does not have"),
            ("other", "a certificate for another file"), ("name", "a name without its right"), ("unsigned", "a certificate without its signature"),
            ("none", "a sequence of nothing"), ("many", "17 certificates"), ("bare", "a key in place of a sequence"),
            ("deep", "65 lists in one another")]:
        yield what, "ben", request(WEB, f"Authorization: SPKI {{{name}}}")
    yield "a right that may not be passed on", "eve", request(WEB, "Authorization: SPKI {passed}")
    for what, value in [("no braces", "(sequence)"), ("empty braces", "{}"), ("nothing", ""), ("no base64", "{~~~}"), ("cut base64", "{KDg6}"),
                        ("more behind the braces", "{ben}x"), ("a token of another kind", "eyJhbGciOiJub25lIn0.e30.")]:
        yield f"in the header {what}", "ben", request(WEB, f"Authorization: SPKI {value}")


LEAVING = "/.well-known/spki-chain"


def attacks_on_left_certificates() -> Iterator[Plain]:
    """Requests at LEAVING, where a client leaves certificates (at most 8,192 octets) for later requests, and at paths like it. Some web servers pass
    those at LEAVING on without asking the daemon. So the daemon must decide no request there, and keep no certificates without a signature."""
    claims = ("X-Original-Method: GET", f"X-Original-URI: {WEB}", "X-Original-Host: localhost", "X-Forwarded-Method: GET", f"X-Forwarded-Uri: {WEB}",
              "X-Forwarded-Host: localhost", "X-Client-Cert: {ann}")
    for method in ("PUT", "GET", "POST", "DELETE", "HEAD", "OPTIONS", "COPY"):
        yield f"a question by {method} where certificates are left", None, request(LEAVING, *claims, method=method)
    for path in (f"{LEAVING}/", "/.well-known/spki%2dchain", f"/web/..{LEAVING}", f"/{LEAVING}", "/.well-known/SPKI-chain", f"{LEAVING}/../..{WEB}"):
        yield f"a question at {path}", None, request(path, *claims, method="PUT")
        yield f"a question by GET at {path}", None, request(path, *claims)
    for what, *lines in [("without a signature",), ("with half a signature", "Signature: spki=:AAAA:"),
                         ("with a key of TLS in a header", "X-Client-Cert: {ann}"), ("with a method that overrides", "X-HTTP-Method-Override: GET")]:
        yield f"certificates that are left {what}", "ben", request(LEAVING, *lines, method="PUT", body="(sequence)")
    yield "certificates that are left with a query", "ben", request(f"{LEAVING}?GET={WEB}", *claims, method="PUT", body="(sequence)")
    yield "certificates that are left in chunks", "ben", raw(
        f"PUT {LEAVING} HTTP/1.1\nHost: localhost\nConnection: close\nTransfer-Encoding: chunked\n\na\n(sequence)\n0\n\n")
    yield "certificates of 9,000 octets", "ben", request(LEAVING, method="PUT", body="(sequence)".ljust(9000))


def attacks_by_hosts(port: int) -> Iterator[tuple[str, Optional[str], bytes]]:
    """Requests to the site `localhost` at a port, by who has a right at the site OTHER alone, most of which name OTHER: what is tried, the name that
    TLS asks for, None for none, and the octets."""
    forms: list[tuple[str, str, list[str]]] = [
        ("this host", PLAN, ["localhost"]), ("the other host", PLAN, [OTHER]), ("with the port", PLAN, [f"{OTHER}:{port}"]),
        ("with the port of https", PLAN, [f"{OTHER}:443"]), ("in capitals", PLAN, [OTHER.upper()]), ("with a dot", PLAN, [f"{OTHER}."]),
        ("before this one", PLAN, [OTHER, "localhost"]), ("behind this one", PLAN, ["localhost", OTHER]), ("no host", PLAN, []),
        ("both in a line", PLAN, [f"localhost, {OTHER}"]), ("this one as a user", PLAN, [f"localhost@{OTHER}"]), ("an empty host", PLAN, [""]),
        ("in the address", f"https://{OTHER}{PLAN}", ["localhost"]), ("in the address and the header", f"https://{OTHER}{PLAN}", [OTHER]),
        ("in the address alone", f"https://{OTHER}{PLAN}", []), ("behind the address", f"https://localhost{PLAN}", [OTHER])]
    for name in ("localhost", OTHER, None):
        for what, target, hosts in forms:
            lines = [f"GET {target} HTTP/1.1", *(f"Host: {host}" for host in hosts), "Connection: close", "", ""]
            yield f"{what}, TLS for {name}", name, "\r\n".join(lines).encode()
    claims = (f"X-Forwarded-Host: {OTHER}", f"X-Original-Host: {OTHER}", f"Forwarded: host={OTHER}")
    yield "in the headers of servers", "localhost", request(PLAN, *claims)
    yield "in HTTP/1.0", "localhost", raw(f"GET https://{OTHER}{PLAN} HTTP/1.0\n\n")
    yield "to write", "localhost", raw(f"PUT /web/made HTTP/1.1\nHost: {OTHER}\nConnection: close\nContent-Length: 4\n\nmade")


# The fields by which a request in HTTP/2 says its host.
HOSTS_OF_FRAMES = [[(":authority", OTHER)], [(":authority", "localhost")], [(":authority", "localhost"), ("host", OTHER)],
                   [(":authority", OTHER), ("host", "localhost")], [("host", OTHER)]]


def with_statuses(attacks: Iterator[Plain], must: set[int]) -> Iterator[Attack]:
    """The attacks of a group, each with the statuses that MUST has for its name, or else with `must`."""
    for what, who, octets in attacks:
        yield Attack(what, who, octets, MUST.get(what, must))


def all_attacks() -> Iterator[Attack]:
    """All attacks. The server may refuse those with doubled parts by itself too, and refuse or not find those at LEAVING or by a path not plain."""
    yield from with_statuses(attacks_by_headers(), DENIED)
    yield from with_statuses(attacks_by_doubled_parts(), MALFORMED)
    yield from with_statuses(attacks_by_methods(), DENIED)
    for path, each in zip(PATHS, attacks_by_paths(), strict=True):
        is_plain = PLAIN_PATH.fullmatch(path) and ".." not in path
        yield from with_statuses(iter([each]), DENIED if is_plain else UNCLEAR)
    yield from with_statuses(attacks_by_certificates(), DENIED)
    yield from with_statuses(attacks_on_left_certificates(), UNCLEAR)
